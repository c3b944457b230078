/*
 * sites.c: places in native code, the libraries that they are in, and whose calls are judged.
 *
 * A library is judged if `libs=` names it; without that option all are but the JDK's own and the agent. What is in no
 * library is the machine's own code. An address is looked up once, and again once a library was unloaded. A place that
 * is there again, wherever its library was loaded, has the same struct as before. Those of libraries that are gone are
 * let go by and by, where nothing that is kept names them.
 */
#include "sites.h"
#include "buffers.h"
#include "forks.h"
#include "caller_state.h"
#include "monitors.h"
#include "names.h"
#include "natives.h"
#include "options.h"
#include "report.h"
#include "sources.h"
#include "table.h"
#include "threads.h"

#include <dlfcn.h>
#include <link.h>
#include <pthread.h>
#include <stdatomic.h>
#include <stdio.h>
#include <stdlib.h>
#include <string.h>

_Atomic uint32_t sites_generation = 1;

static pthread_mutex_t lock = PTHREAD_MUTEX_INITIALIZER;
static struct library *libraries, *free_libraries;

/* What stood at an address, in this generation. */
static struct place {
    uintptr_t at;
    struct site *site; /* NULL: an empty place of the hash table */
    uint32_t generation;
} * places;
static size_t place_count, place_room;

/* All sites, in a hash table of lists by their libraries and offsets. */
static struct site **lists, *free_sites;
static size_t list_count;
static _Atomic size_t site_count; /* it is changed under the lock */

static char *jdk_home;
static uintptr_t own_base, machine_base;

static const struct library NOWHERE = {.path = "", .name = "?"};

/* ---- libraries ---- */

char *sites_spelled(const char *name) {
    static const char DIGITS[] = "0123456789abcdef";
    char *made = must_make(4 * strlen(name) + 1), *end = made;
    for (; *name != 0; name++) {
        unsigned char byte = (unsigned char)*name;
        if (byte >= 0x20 && byte != 0x7F && byte != '\\') {
            *end++ = *name;
            continue;
        }
        *end++ = '\\';
        *end++ = 'x';
        *end++ = DIGITS[byte >> 4];
        *end++ = DIGITS[byte & 15];
    }
    return made;
}

static const char *name_of(const char *path) {
    const char *slash = strrchr(path, '/');
    return slash ? slash + 1 : path;
}

/* Whether `libs=` names the library: demo, libdemo.so, or its path. */
static int is_named(const char *path) {
    const char *name = name_of(path), *begun = name;
    size_t size;
    if (strncmp(begun, "lib", 3) == 0) {
        begun += 3;
    }
    size = strcspn(begun, ".");
    return is_listed(options.libraries, path, strlen(path)) || is_listed(options.libraries, name, strlen(name)) ||
           is_listed(options.libraries, begun, size);
}

static int is_of_jdk(const char *path) {
    size_t size = jdk_home ? strlen(jdk_home) : 0;
    return size > 0 && strncmp(path, jdk_home, size) == 0 && path[size] == '/';
}

static int is_judged(const char *path, uintptr_t base) {
    if (base == own_base) {
        return 0;
    }
    return options.libraries ? is_named(path) : !is_of_jdk(path);
}

/* ---- what a library exports ---- */

/* Where a library's exported symbols are. */
struct symbols {
    const ElfW(Sym) * table;
    const char *names;
    size_t first, end;
};

/* The symbols that a hash table in GNU's form is of: the last chain ends with the last of them. */
static void count_hashed(const uint32_t *hash, struct symbols *symbols) {
    uint32_t bucket_count = hash[0], first = hash[1], last = 0;
    const uint32_t *buckets = (const uint32_t *)((const ElfW(Addr) *)(hash + 4) + hash[2]);
    const uint32_t *chains = buckets + bucket_count;
    for (uint32_t at = 0; at < bucket_count; at++) {
        last = buckets[at] > last ? buckets[at] : last;
    }
    if (last >= first && last > 0) {
        while ((chains[last - first] & 1) == 0) {
            last++;
        }
        symbols->first = first;
        symbols->end = last + 1;
    }
}

static struct symbols symbols_of(const struct link_map *library) {
    struct symbols symbols = {.table = NULL};
    for (const ElfW(Dyn) *it = library ? library->l_ld : NULL; it != NULL && it->d_tag != DT_NULL; it++) {
        /* Some machines have these addresses as they are in the file. */
        uintptr_t at = it->d_un.d_ptr < library->l_addr ? it->d_un.d_ptr + library->l_addr : it->d_un.d_ptr;
        if (it->d_tag == DT_SYMTAB) {
            symbols.table = (const ElfW(Sym) *)at;
        } else if (it->d_tag == DT_STRTAB) {
            symbols.names = (const char *)at;
        } else if (it->d_tag == DT_HASH && symbols.end == 0) {
            symbols.end = ((const uint32_t *)at)[1];
        } else if (it->d_tag == DT_GNU_HASH) {
            count_hashed((const uint32_t *)at, &symbols);
        }
    }
    return symbols;
}

/* Whether it is an agent of JVMTI. dlsym would look into the libraries that it needs, and change what dlerror says. */
static int is_tool(const struct link_map *library) {
    struct symbols symbols = symbols_of(library);
    for (size_t at = symbols.first; symbols.table && symbols.names && at < symbols.end; at++) {
        const ElfW(Sym) *it = &symbols.table[at];
        const char *name = symbols.names + it->st_name;
        if (it->st_shndx != SHN_UNDEF && (strcmp(name, "Agent_OnLoad") == 0 || strcmp(name, "Agent_OnAttach") == 0)) {
            return 1;
        }
    }
    return 0;
}

/* The library of this path that was loaded by this name. Under the lock. */
static const struct library *library_of(const char *path, uintptr_t base, const struct link_map *library) {
    for (struct library *it = libraries; it != NULL; it = it->next) {
        if (strcmp(it->loaded_as, library->l_name) == 0 && strcmp(it->path, path) == 0) {
            return it;
        }
    }
    struct library *made = free_libraries ? free_libraries : must_make(sizeof *made);
    free_libraries = free_libraries ? free_libraries->next : NULL;
    made->loaded_as = must_copy(library->l_name);
    made->path = must_copy(path);
    made->name = sites_spelled(name_of(made->path));
    made->is_judged = is_judged(made->path, base);
    made->is_of_jdk = is_of_jdk(made->path);
    made->is_machine = base == machine_base;
    made->is_tool = is_tool(library);
    made->is_loaded = 1;
    made->next = libraries;
    libraries = made;
    return made;
}

/* ---- places ---- */

/* Whether a function of this name only passes a call on: those that C++ has of JNIEnv and JavaVM, and those of wrap=.
 */
static int is_passing_on(const char *symbol) {
    if (symbol == NULL) {
        return 0;
    }
    return strncmp(symbol, "_ZN7JNIEnv_", 11) == 0 || strncmp(symbol, "_ZN7JavaVM_", 11) == 0 ||
           is_listed(options.wrappers, symbol, strlen(symbol));
}

/* What the loader says of an address. */
struct looked_up {
    char *path; /* the whole path of the library, or NULL */
    uintptr_t base;
    const struct link_map *library;
    const char *symbol; /* of what is exported, or NULL */
    uintptr_t symbol_at;
    const void *unwinding; /* the library's tables for the unwinder, or NULL */
    int is_in_table;   /* functions of the library stand in the table before the agent's */
    int is_passing_on; /* its function only passes calls on */
    struct step step;
};

/* A program's own name may be no path. */
static char *whole_path(const char *name) {
    char *path = realpath(strchr(name, '/') ? name : "/proc/self/exe", NULL);
    return path ? path : must_copy(name);
}

#ifndef DLFO_STRUCT_HAS_EH_DBASE
/* What these headers lack, nobody looks for (sites_open). */
struct dl_find_object {
    void *dlfo_map_start, *dlfo_eh_frame;
    struct link_map *dlfo_link_map;
};
#endif

/*
 * _dl_find_object of the C library, or NULL: it has one from 2.35 on. dladdr, which then is asked, waits for a lock of
 * the loader's, which a thread holds while a library's constructor runs.
 */
static int (*find_object)(void *, struct dl_find_object *);

/* The exported symbol that the address stands in: of several the one that begins last, and of those the first. */
static void find_symbol(uintptr_t at, struct looked_up *it) {
    struct symbols symbols = symbols_of(it->library);
    uintptr_t offset = at - it->library->l_addr;
    const ElfW(Sym) *found = NULL;
    for (size_t number = symbols.first; symbols.table && symbols.names && number < symbols.end; number++) {
        const ElfW(Sym) *symbol = &symbols.table[number];
        if (symbol->st_shndx != SHN_UNDEF && ELF64_ST_TYPE(symbol->st_info) != STT_TLS && symbol->st_value <= offset &&
            (offset == symbol->st_value || offset - symbol->st_value < symbol->st_size) &&
            (found == NULL || found->st_value < symbol->st_value)) {
            found = symbol;
        }
    }
    if (found != NULL) {
        it->symbol = symbols.names + found->st_name;
        it->symbol_at = it->library->l_addr + found->st_value;
    }
}

static uintptr_t base_of(uintptr_t at) {
    struct dl_find_object found;
    Dl_info info;
    if (find_object != NULL) {
        return find_object((void *)at, &found) == 0 ? (uintptr_t)found.dlfo_map_start : 0;
    }
    return dladdr((void *)at, &info) ? (uintptr_t)info.dli_fbase : 0;
}

/* Where the unwinder's tables of a library are. */
struct tables {
    uintptr_t base;
    const void *unwinding;
};

static int see_tables(struct dl_phdr_info *info, size_t size, void *of) {
    struct tables *tables = of;
    (void)size;
    for (size_t at = 0; info->dlpi_addr == tables->base && at < info->dlpi_phnum; at++) {
        if (info->dlpi_phdr[at].p_type == PT_GNU_EH_FRAME) {
            tables->unwinding = (const void *)(info->dlpi_addr + info->dlpi_phdr[at].p_vaddr);
        }
    }
    return tables->unwinding != NULL;
}

static const void *unwinding_of(const struct link_map *library) {
    struct tables tables = {library->l_addr, NULL};
    dl_iterate_phdr(see_tables, &tables);
    return tables.unwinding;
}

static const void *tables_at(uintptr_t at) {
    struct dl_find_object found;
    Dl_info info;
    void *library = NULL;
    if (find_object != NULL) {
        return find_object((void *)at, &found) == 0 ? found.dlfo_eh_frame : NULL;
    }
    return dladdr1((void *)at, &info, &library, RTLD_DL_LINKMAP) && library != NULL ? unwinding_of(library) : NULL;
}

static struct looked_up look_up(uintptr_t at) {
    struct looked_up it = {.path = NULL};
    struct dl_find_object found;
    Dl_info info;
    void *library = NULL;
    if (find_object != NULL && find_object((void *)at, &found) == 0) {
        it.library = found.dlfo_link_map;
        it.base = (uintptr_t)found.dlfo_map_start;
        it.path = whole_path(it.library->l_name);
        it.unwinding = found.dlfo_eh_frame;
        find_symbol(at, &it);
    } else if (find_object == NULL && dladdr1((void *)at, &info, &library, RTLD_DL_LINKMAP) && info.dli_fname != NULL) {
        it.library = library;
        it.base = (uintptr_t)info.dli_fbase;
        it.path = whole_path(info.dli_fname);
        it.symbol = info.dli_sname;
        it.symbol_at = (uintptr_t)info.dli_saddr;
        it.unwinding = unwinding_of(it.library);
    }
    return it;
}

/* Whether the library replaced functions of the table after the agent did, as a tracer does. */
static int is_in_table(uintptr_t base) {
    uintptr_t function;
    for (size_t at = 0; (function = table_foreign(NULL, &at)) != 0; at++) {
        if (base_of(function) == base) {
            return 1;
        }
    }
    return 0;
}

/* What stands at the address. Under the lock. */
static struct site site_of(uintptr_t at, const struct looked_up *it) {
    struct site site = {.library = &NOWHERE, .offset = at, .is_marked = 1};
    if (it->path != NULL) {
        site.library = library_of(it->path, it->base, it->library);
        site.offset = at - it->base;
        site.is_own = it->base == own_base;
        if (it->symbol != NULL) {
            site.symbol = it->symbol;
            site.in_symbol = at - it->symbol_at;
        }
        site.is_in_table = it->is_in_table;
        site.is_wrapper = it->is_in_table || it->is_passing_on;
        site.step = it->step;
    }
    site.is_judged = site.library->is_judged;
    return site;
}

static int is_same(const struct site *site, const struct site *like) {
    return site->library == like->library && site->offset == like->offset && site->in_symbol == like->in_symbol &&
           site->is_own == like->is_own && site->is_in_table == like->is_in_table &&
           site->is_wrapper == like->is_wrapper && memcmp(&site->step, &like->step, sizeof site->step) == 0 &&
           (site->symbol ? like->symbol != NULL && strcmp(site->symbol, like->symbol) == 0 : like->symbol == NULL);
}

static struct site **list_of(const struct site *site) {
    size_t key = (uintptr_t)site->library + site->offset * 31;
    return &lists[key * 0x9E3779B97F4A7C15u >> 32 & (list_count - 1)];
}

static void grow_lists(void) {
    struct site **before = lists, *next;
    size_t count = list_count;
    list_count = count ? 2 * count : 1024;
    lists = must_make(list_count * sizeof *lists);
    for (size_t at = 0; at < count; at++) {
        for (struct site *it = before[at]; it != NULL; it = next) {
            struct site **list = list_of(it);
            next = it->next;
            it->next = *list;
            *list = it;
        }
    }
    free(before);
}

/* The struct of such a site, which is made if there is none. Under the lock. */
static struct site *find_or_make(const struct site *like) {
    if (site_count >= list_count) {
        grow_lists();
    }
    struct site **list = list_of(like), *it = *list;
    while (it != NULL && !is_same(it, like)) {
        it = it->next;
    }
    if (it != NULL) {
        it->is_marked = 1;
        return it;
    }
    struct site *made = free_sites ? free_sites : must_make(sizeof *made);
    free_sites = free_sites ? free_sites->next : NULL;
    *made = *like;
    made->symbol = like->symbol ? must_copy(like->symbol) : NULL;
    made->next = *list;
    *list = made;
    site_count++;
    return made;
}

static struct place *place_in(struct place *table, size_t room, uintptr_t at) {
    size_t place = (at * 0x9E3779B97F4A7C15u >> 32) & (room - 1);
    while (table[place].site != NULL && table[place].at != at) {
        place = (place + 1) & (room - 1);
    }
    return &table[place];
}

/* Makes the table anew, with room for as many places again. What may be there no longer is left out. Under the lock. */
static void renew_places(void) {
    size_t count = 0, room = 1024;
    for (size_t at = 0; at < place_room; at++) {
        count += places[at].site != NULL && places[at].generation == sites_generation;
    }
    while (room < 4 * count) {
        room *= 2;
    }
    struct place *made = must_make(room * sizeof *made);
    place_count = 0;
    for (size_t at = 0; at < place_room; at++) {
        if (places[at].site != NULL && places[at].generation == sites_generation) {
            *place_in(made, room, places[at].at) = places[at];
            place_count++;
        }
    }
    free(places);
    places = made;
    place_room = room;
}

/* The place, if it is known; or made of what was looked up. */
static const struct site *find_or_add(uintptr_t at, const struct looked_up *it, int is_return) {
    pthread_mutex_lock(&lock);
    if (2 * (place_count + 1) > place_room) {
        renew_places();
    }
    struct place *place = place_in(places, place_room, at);
    int is_known = place->site != NULL && place->generation == sites_generation;
    if (!is_known && it != NULL) {
        const struct site like = site_of(at, it);
        place_count += place->site == NULL;
        *place = (struct place){at, find_or_make(&like), sites_generation};
        is_known = 1;
    }
    struct site *found = is_known ? place->site : NULL;
    if (found != NULL && is_return && !found->is_return) {
        found->is_return = 1;
    }
    pthread_mutex_unlock(&lock);
    return found;
}

/* Looks the address up, and makes its place. */
static const struct site *add_site(uintptr_t at, int is_return) {
    struct looked_up it = look_up(at);
    char *symbol = it.symbol ? sites_spelled(it.symbol) : NULL;
    if (it.path != NULL) {
        it.is_in_table = it.base != own_base && is_in_table(it.base);
        it.is_passing_on = is_passing_on(it.symbol);
    }
    if (it.is_in_table || it.is_passing_on) {
        it.step = unwind_find(it.unwinding, at);
    }
    it.symbol = symbol;
    const struct site *found = find_or_add(at, &it, is_return);
    free(symbol);
    free(it.path);
    return found;
}

/* ---- what is gone ---- */

enum { FEWEST_SWEPT = 4096 };

/* The names by which libraries are loaded now. */
struct names_loaded {
    char **items;
    size_t count, room;
};

static int see_loaded(struct dl_phdr_info *info, size_t size, void *names) {
    struct names_loaded *to = names;
    (void)size;
    MAKE_ROOM(to->items, to->count, to->room);
    to->items[to->count++] = must_copy(info->dlpi_name ? info->dlpi_name : "");
    return 0;
}

/* Whether a library is loaded by this name. */
static int is_loaded(const struct names_loaded *names, const char *name) {
    size_t at = 0;
    while (at < names->count && strcmp(names->items[at], name) != 0) {
        at++;
    }
    return at < names->count;
}

/* Marks the sites of what is loaded, and of what the machine generated. */
static void mark_loaded(void) {
    struct names_loaded names = {NULL, 0, 0};
    dl_iterate_phdr(see_loaded, &names);
    pthread_mutex_lock(&lock);
    for (struct library *it = libraries; it != NULL; it = it->next) {
        it->is_loaded = is_loaded(&names, it->loaded_as);
    }
    for (size_t at = 0; at < list_count; at++) {
        for (struct site *it = lists[at]; it != NULL; it = it->next) {
            it->is_marked = it->library == &NOWHERE || it->library->is_loaded;
        }
    }
    pthread_mutex_unlock(&lock);
    for (size_t at = 0; at < names.count; at++) {
        free(names.items[at]);
    }
    free(names.items);
}

void sites_mark(const struct site *site) {
    if (site != NULL) {
        ((struct site *)(uintptr_t)site)->is_marked = 1;
    }
}

/* Lets the site go. Its struct stays one of a site, for whoever compares it yet. Under the lock. */
static void let_site_go(struct site *site) {
    free((void *)(uintptr_t)site->symbol);
    *site = (struct site){.library = &NOWHERE, .next = free_sites};
    free_sites = site;
    site_count--;
}

/* Lets libraries go that aren't loaded and have no sites. Under the lock. */
static void let_libraries_go(void) {
    for (size_t at = 0; at < list_count; at++) {
        for (struct site *it = lists[at]; it != NULL; it = it->next) {
            if (it->library != &NOWHERE) {
                ((struct library *)(uintptr_t)it->library)->is_loaded = 1;
            }
        }
    }
    for (struct library **link = &libraries, *it; (it = *link) != NULL;) {
        if (it->is_loaded) {
            link = &it->next;
            continue;
        }
        *link = it->next;
        free(it->loaded_as);
        free((void *)(uintptr_t)it->path);
        free((void *)(uintptr_t)it->name);
        *it = (struct library){.path = "", .name = "?", .next = free_libraries};
        free_libraries = it;
    }
}

static void let_unmarked_go(void) {
    for (size_t at = 0; at < list_count; at++) {
        for (struct site **link = &lists[at], *it; (it = *link) != NULL;) {
            if (it->is_marked) {
                link = &it->next;
            } else {
                *link = it->next;
                let_site_go(it);
            }
        }
    }
    let_libraries_go();
}

static _Atomic int readers;

void sites_read(void) {
    readers++;
}

void sites_were_read(void) {
    readers--;
}

/*
 * Lets go the places of libraries that are gone, where nothing names them: neither a reference or buffer, nor a monitor
 * or a native method, nor a block. Nobody stores such a place anew, for who does so is called from there. Whoever
 * spells one that is stored has said so (sites_read): then it is done another time. The adviser keeps places to itself.
 */
static void sweep(void) {
    static _Atomic size_t next = FEWEST_SWEPT;
    static atomic_flag is_sweeping = ATOMIC_FLAG_INIT;
    if (site_count < next || options.advice || atomic_flag_test_and_set(&is_sweeping)) {
        return;
    }
    sites_check_unloaded();
    mark_loaded();
    /* What threads remember may become a name meanwhile, so they come first. */
    threads_each_site(sites_mark);
    names_each_site(sites_mark);
    natives_each_site(sites_mark);
    buffers_each_site(sites_mark);
    monitors_each_site(sites_mark);
    report_each_site(sites_mark);
    pthread_mutex_lock(&lock);
    if (readers == 0) {
        renew_places();
        let_unmarked_go();
    }
    next = site_count < FEWEST_SWEPT / 2 ? FEWEST_SWEPT : 2 * site_count;
    pthread_mutex_unlock(&lock);
    atomic_flag_clear(&is_sweeping);
}

static const struct site *site_at(uintptr_t at, int is_return) {
    const struct site *found = find_or_add(at, NULL, is_return);
    if (found == NULL) {
        struct kept kept;
        keep(&kept);
        found = add_site(at, is_return);
        sweep();
        restore(&kept);
    }
    return found;
}

const struct site *sites_at(uintptr_t at) {
    return site_at(at, 0);
}

int sites_is_there(const struct site *site, uintptr_t at) {
    return base_of(at) == at - site->offset;
}

/* ---- callers ---- */

enum { MOST_STEPS = 16 };

/* Whether the thread used the place lately. */
static int is_recent(const struct recent_site *kept, uintptr_t at) {
    return kept->generation == sites_generation && kept->at == at && kept->site != NULL;
}

static struct recent_site *recent_place(struct thread *thread, uintptr_t at) {
    return &thread->recent[(at >> 1) & (RECENT_SITES - 1)];
}

static const struct site *recent(struct thread *thread, uintptr_t at) {
    struct recent_site *kept = recent_place(thread, at);
    if (!is_recent(kept, at)) {
        uint32_t generation = sites_generation;
        kept->site = site_at(at, 1);
        kept->at = at;
        kept->generation = generation;
    }
    return kept->site;
}

/* The same, or NULL of what is in no library: that is code which the machine generated. */
static const struct site *recent_in_library(struct thread *thread, uintptr_t at) {
    return is_recent(recent_place(thread, at), at) || base_of(at) != 0 ? recent(thread, at) : NULL;
}

/*
 * The place of a call. Where it isn't in the library of the thread's last call, or is the first of a native method,
 * another library may stand where that one did.
 */
static const struct site *called_at(struct thread *thread, uintptr_t at) {
    const struct site *found = recent(thread, at);
    if (found->library != thread->last_library) {
        struct kept kept;
        keep(&kept);
        sites_check_unloaded();
        restore(&kept);
        found = recent(thread, at);
        thread->last_library = found->library;
    }
    return found;
}

/*
 * The place that the functions which only pass a call on were called from, by the unwinder's tables of their libraries.
 * So are those that another agent put into the table before this one's. A call of that agent's own comes from the
 * machine, or from Java.
 */
static const struct site *above(struct thread *thread, const struct site *first, uintptr_t frame) {
    const uintptr_t *saved = (const uintptr_t *)frame;
    struct registers registers = {.stack = frame + 2 * sizeof *saved, .frame = *saved};
    const struct site *found = first;
    for (int depth = 0; depth < MOST_STEPS && found->is_wrapper; depth++) {
        uintptr_t next = unwind_up(&found->step, &registers, thread->stack_low, thread->stack_high);
        const struct site *outer = next ? recent_in_library(thread, next) : NULL;
        if (outer == NULL || outer->library == &NOWHERE) {
            return first->is_in_table ? first : found;
        }
        found = outer;
    }
    int is_its_own = first->is_in_table && (found->is_own || found->library->is_machine);
    return is_its_own ? first : found;
}

const struct site *sites_find_caller(struct thread *thread, uintptr_t at, uintptr_t frame) {
    const struct site *found = called_at(thread, at);
    if (found->is_wrapper) {
        found = above(thread, found, frame);
    }
    if (found->is_own && thread->depth > 0) {
        return thread->activations[thread->depth - 1].native->site;
    }
    return found;
}

/* ---- the stack ---- */

/*
 * How the frame at this return address is left. Where no tables say so, the frame pointer leads out of a function that
 * sets one. Whether it is known: what a function without either has in that register may be anything.
 */
static int knows_step(const struct site *site, uintptr_t at, struct step *step) {
    if (unwind_knows(tables_at(at), at, step)) {
        return 1;
    }
    *step = unwind_by_frame_pointer();
    return site->symbol != NULL && unwind_sets_frame_pointer((const unsigned char *)at - site->in_symbol);
}

size_t sites_stack(const struct thread *thread, const struct site *site, uintptr_t frame, const struct site **stack,
                   size_t room) {
    enum { MOST_DEPTH = 64 };
    size_t count = 0;
    if (frame == 0) {
        return 0;
    }
    const uintptr_t *saved = (const uintptr_t *)frame;
    struct registers registers = {.stack = frame + 2 * sizeof *saved, .frame = saved[0]};
    uintptr_t at = saved[1];
    for (int depth = 0; depth < MOST_DEPTH && count < room && at != 0 && base_of(at) != 0; depth++) {
        const struct site *here = site_at(at, 1);
        struct step step;
        if (here->is_own || here->library->is_machine) {
            break;
        }
        if (count > 0 || here == site) {
            stack[count++] = here;
        }
        at = knows_step(here, at, &step) ? unwind_up(&step, &registers, thread->stack_low, thread->stack_high) : 0;
    }
    return count;
}

/* ---- unloading ---- */

static int count_unloaded(struct dl_phdr_info *info, size_t size, void *count) {
    (void)size;
    *(unsigned long long *)count = info->dlpi_subs;
    return 1;
}

void sites_check_unloaded(void) {
    static _Atomic unsigned long long known;
    unsigned long long count = 0;
    dl_iterate_phdr(count_unloaded, &count);
    if (known != count) {
        /* In this order: who sees the count sees that places are older. */
        sites_generation++;
        known = count;
    }
}

/* ---- opening ---- */

/* The path of a JDK's machine ends by /lib/server/libjvm.so: what is before that is the JDK's home. */
static void find_jdk(void) {
    Dl_info found;
    uintptr_t at;
    memcpy(&at, &machine_invocation->GetEnv, sizeof at);
    if (dladdr((void *)at, &found) == 0 || found.dli_fname == NULL) {
        return;
    }
    machine_base = (uintptr_t)found.dli_fbase;
    jdk_home = realpath(found.dli_fname, NULL);
    for (int level = 0; jdk_home != NULL && level < 3; level++) {
        char *slash = strrchr(jdk_home, '/');
        if (slash != NULL) {
            *slash = 0;
        }
    }
}

/* A name of version 2.35 that the agent asked for itself would keep it from running over an older C library. */
static void look_for_find_object(void) {
#ifdef DLFO_STRUCT_HAS_EH_DBASE
    void *found = dlsym(RTLD_DEFAULT, "_dl_find_object");
    memcpy(&find_object, &found, sizeof find_object);
    dlerror(); /* which else says that there is none */
#endif
}

void sites_open(void) {
    Dl_info found;
    if (dladdr(&libraries, &found)) {
        own_base = (uintptr_t)found.dli_fbase;
    }
    look_for_find_object();
    find_jdk();
    sources_open();
    sites_check_unloaded();
}

/* ---- texts ---- */

void sites_describe(const struct site *site, char *text, size_t room) {
    if (site == NULL) {
        snprintf(text, room, "an unknown place");
    } else if (site->symbol != NULL) {
        snprintf(text, room, "%s+0x%lx in %s", site->library->name, (unsigned long)site->offset, site->symbol);
    } else {
        snprintf(text, room, "%s+0x%lx", site->library->name, (unsigned long)site->offset);
    }
}

/* A return address is that of the next instruction, so the call stands before it. A native method has its own. */
static uintptr_t offset_of(const struct site *site) {
    return site->is_return && site->offset ? site->offset - 1 : site->offset;
}

/*
 * Asks about places of one library. Of one that nothing was known of it isn't asked at once again, since each asking
 * begins a process; at the end it is.
 */
static size_t find_in(const struct library *library, const uintptr_t *offsets, size_t count, enum haste haste,
                      struct source *to, size_t room) {
    int is_bare;
    if (library == &NOWHERE || (haste == AT_ONCE && library->is_bare)) {
        return 0;
    }
    size_t found = sources_find(library->path, offsets, count, haste, to, room, &is_bare);
    if (is_bare) {
        ((struct library *)(uintptr_t)library)->is_bare = 1;
    }
    return found;
}

/* Finds what stands at the first places, as many as are in one library. How many these are. */
static size_t find_some(const struct site *const *all, size_t count, enum haste haste, struct source *to, size_t room,
                        size_t *found) {
    uintptr_t offsets[MOST_ASKED];
    size_t some = 0;
    while (some < count && some < MOST_ASKED && all[some]->library == all[0]->library) {
        offsets[some] = offset_of(all[some]);
        some++;
    }
    *found = find_in(all[0]->library, offsets, some, haste, to, room);
    return some;
}

size_t sites_sources(const struct site *const *all, size_t count, enum haste haste, struct source *to, size_t room) {
    size_t total = 0, found;
    for (size_t done = 0, some; done < count; done += some) {
        some = find_some(all + done, count - done, haste, to + total, room - total, &found);
        for (size_t at = 0; at < found; at++) {
            to[total + at].which += done;
        }
        total += found;
    }
    return total;
}

__attribute__((constructor)) static void hold_at_fork(void) {
    FORKS_HOLD(FORKS_MUTEX, &lock);
}
