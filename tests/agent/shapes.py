"""The shapes of what the agent writes for tools: its JSON (docs/REPORTS.md), and SARIF 2.1.0 as far as it uses that."""
import re
import sys

# A shape is a type, a list with the shape of its items, a set of words, or the properties of an object. A property
# whose name ends with `?` may be left out, and no other may be there.
LINE = {'file?': str, 'line?': int}
SITE = {'library?': str, 'path?': str, 'offset?': int, 'is_return?': bool, 'symbol?': str, **LINE}
EVENT = {'text': str, 'by?': str, 'site': SITE}
BLOCK = {'block': int, 'rule?': int, 'name': str, 'function?': str, 'beside?': int, 'site': SITE}
FRAMES = {'native': [{**SITE, 'function?': str}],
          'java': [{'class': str, 'method': str, **LINE, 'is_native': bool}]}
TOLD = {**BLOCK, 'thread': {'number': int, 'name?': str},
        'operand?': {'number': int, 'name': str, 'origin?': {'lost', 'unseen', 'made'}},
        'made?': EVENT, 'ended?': EVENT, 'lent?': EVENT, 'given_back?': EVENT, 'region?': EVENT, 'left?': EVENT,
        'source?': EVENT, 'text?': str, 'method?': str,
        'pending?': {'class': str, 'message?': str}, 'reasons': [str], 'frames': FRAMES, 'rule_text?': str,
        'help?': str, 'message': str}
LIBRARY = {'library?': str, 'path?': str, 'blocks': int, 'denied': int, 'noticed': int, 'advised': int,
           'suppressed': int}
LINES = {
    'head': {'format': int, 'version': str, 'process': int, 'jdk': str, 'options': str},
    'denial': TOLD,
    'notice': TOLD,
    'advice': TOLD,
    'said': {'text': str},
    'leak': {'of': {'global references', 'weak global references', 'buffers', 'monitors'}, 'count': int,
             'function': str, 'site': SITE, 'message': str},
    'count': {'of': {'denial', 'notice', 'advice'}, **BLOCK, 'region?': {'site': SITE}, 'count': int,
              'is_told': bool, 'is_suppressed': bool, 'message': str},
    'summary': {'judged': int, 'denied': int, 'suppressed': int, 'unjudged': int, 'impossible': int, 'refused': int,
                'unseen': int, 'has_stubs': bool, 'libraries': [LIBRARY],
                'unused_suppressions': [{'line': int, 'text': str}]}}

# Of each object of SARIF 2.1.0 that is written: its properties, after the schema of the standard.
ARTIFACT = {'uri': str, 'uriBaseId?': str, 'index?': int}
REGION = {'startLine': int, 'startColumn?': int, 'endLine?': int, 'endColumn?': int}
ADDRESS = {'absoluteAddress?': int, 'relativeAddress?': int, 'length?': int, 'kind?': str, 'name?': str,
           'fullyQualifiedName?': str}
PHYSICAL = {'address?': ADDRESS, 'artifactLocation?': ARTIFACT, 'region?': REGION}
LOGICAL = {'name?': str, 'fullyQualifiedName?': str, 'decoratedName?': str, 'kind?': str}
MESSAGE = {'text': str, 'markdown?': str}
LOCATION = {'id?': int, 'physicalLocation?': PHYSICAL, 'logicalLocations?': [LOGICAL], 'message?': MESSAGE}
FRAME = {'location?': LOCATION, 'module?': str, 'threadId?': int, 'parameters?': [str]}
RESULT = {'ruleId?': str, 'ruleIndex?': int, 'level?': {'none', 'note', 'warning', 'error'}, 'message': MESSAGE,
          'locations?': [LOCATION], 'relatedLocations?': [LOCATION], 'stacks?': [{'frames': [FRAME]}],
          'occurrenceCount?': int, 'partialFingerprints?': dict, 'properties?': dict}
RULE = {'id': str, 'name?': str, 'shortDescription?': MESSAGE, 'fullDescription?': MESSAGE, 'help?': MESSAGE,
        'properties?': dict}
DRIVER = {'name': str, 'version?': str, 'semanticVersion?': str, 'informationUri?': str, 'rules?': [RULE]}
INVOCATION = {'executionSuccessful': bool, 'processId?': int, 'properties?': dict}
RUN = {'tool': {'driver': DRIVER}, 'invocations?': [INVOCATION], 'results?': [RESULT],
       'columnKind?': {'utf16CodeUnits', 'unicodeCodePoints'}}
SARIF = {'$schema?': str, 'version': {'2.1.0'}, 'runs': [RUN]}

REFERENCE = re.compile(r"^(?:[a-z]+://)?(?:[A-Za-z0-9/._~:@!$&'()*+,;=-]|%[0-9A-F]{2})+$")


def wrong(shape, value, where):
    """What of the value isn't of the shape."""
    if isinstance(shape, list):
        if not isinstance(value, list):
            return [f'{where} is no list']
        return [it for number, item in enumerate(value) for it in wrong(shape[0], item, f'{where}[{number}]')]
    if isinstance(shape, set):
        return [] if isinstance(value, str) and value in shape else [f'{where} is {value!r}']
    if not isinstance(shape, dict):
        is_so = isinstance(value, shape) and not (shape is int and (isinstance(value, bool) or value < 0))
        return [] if is_so else [f'{where} is {value!r}']
    if not isinstance(value, dict):
        return [f'{where} is no object']
    needed = {it for it in shape if not it.endswith('?')}
    known = {it.rstrip('?'): inner for it, inner in shape.items()}
    found = [f'{where} lacks {it}' for it in sorted(needed - value.keys())]
    found += [f'{where} has {it}' for it in sorted(value.keys() - known.keys())]
    return found + [it for key in value.keys() & known.keys() for it in wrong(known[key], value[key], f'{where}.{key}')]


def of_line(line):
    """What is wrong with a line of the JSON."""
    if not isinstance(line, dict) or line.get('kind') not in LINES:
        return [f'no kind: {line!r}']
    kind = line['kind']
    found = wrong({'kind': str, **LINES[kind]}, line, kind)
    if kind in ('denial', 'count') and (line.get('of', kind) == 'denial') != ('rule' in line):
        found.append(f'{kind}: a rule is there, or lacks')
    return found


def objects_in(value):
    if isinstance(value, dict):
        yield value
    for it in value.values() if isinstance(value, dict) else value if isinstance(value, list) else []:
        yield from objects_in(it)


def is_unique(items):
    return all(it not in items[:at] for at, it in enumerate(items))


def of_results(run):
    """What the schema can't say: that numbers of rules are right; and what it says of single values."""
    rules = run['tool']['driver'].get('rules', [])
    found = [] if is_unique(rules) else ['two rules are alike']
    for at, it in enumerate(run.get('results', [])):
        if not rules[it['ruleIndex']:] or rules[it['ruleIndex']]['id'] != it['ruleId']:
            found.append(f'result {at}: its rule')
        if it.get('occurrenceCount', 1) < 1 or not is_unique(it.get('relatedLocations', [])):
            found.append(f'result {at}: its count or its places')
        if any(not isinstance(text, str) for text in it.get('partialFingerprints', {}).values()):
            found.append(f'result {at}: its fingerprints')
    return found


def of_sarif(sarif):
    """What is wrong with a file in SARIF."""
    found = wrong(SARIF, sarif, 'sarif')
    if found:
        return found
    for run in sarif['runs']:
        found += of_results(run)
    for it in objects_in(sarif):
        if 'uri' in it and not REFERENCE.match(it['uri']):
            found.append(f'no URI: {it["uri"]}')
        if it.get('startLine', 1) < 1:
            found.append('a line before the first')
        where = it.get('physicalLocation', {'address': 0})
        if 'address' not in where and 'artifactLocation' not in where:
            found.append(f'a location of nothing: {where}')
    return found


# Of which class of SARIF's published model the value of a property is.
CLASSES = {'runs': 'Run', 'tool': 'Tool', 'driver': 'ToolComponent', 'rules': 'ReportingDescriptor',
           'shortDescription': 'MultiformatMessageString', 'help': 'MultiformatMessageString',
           'invocations': 'Invocation', 'results': 'Result', 'message': 'Message', 'locations': 'Location',
           'relatedLocations': 'Location', 'location': 'Location', 'physicalLocation': 'PhysicalLocation',
           'artifactLocation': 'ArtifactLocation', 'address': 'Address', 'region': 'Region',
           'logicalLocations': 'LogicalLocation', 'stacks': 'Stack', 'frames': 'StackFrame'}
# Where Debian's python3-sarif-python-om has its classes, which were made of the published schema.
DEBIAN = '/usr/lib/python3/dist-packages'


def model():
    """The classes, or None where they aren't there."""
    sys.path.append(DEBIAN)
    try:
        import sarif_om
        return sarif_om
    except ImportError:
        return None
    finally:
        sys.path.remove(DEBIAN)


def of_model(classes, value, name='SarifLog'):
    """What of an object the class of the published model doesn't have, or has and the object lacks."""
    fields = {it.metadata['schema_property_name']: it for it in getattr(classes, name).__attrs_attrs__}
    known, needed = fields.keys(), {key for key, it in fields.items() if 'NOTHING' in str(it.default)}
    found = [f'{name} has {it}' for it in sorted(value.keys() - known)]
    found += [f'{name} lacks {it}' for it in sorted(needed - value.keys())]
    for key in value.keys() & CLASSES.keys():
        items = value[key] if isinstance(value[key], list) else [value[key]]
        found += [it for item in items for it in of_model(classes, item, CLASSES[key])]
    return found


def keys_in(shape):
    if isinstance(shape, dict):
        for key, inner in shape.items():
            yield key.rstrip('?')
            yield from keys_in(inner)
    elif isinstance(shape, list):
        yield from keys_in(shape[0])


def keys_of(value):
    """The keys of an object, and of those in it."""
    return {key for it in objects_in(value) for key in it}


def keys():
    """All keys of the JSON."""
    return {'kind', *(it for shape in LINES.values() for it in keys_in(shape))}
