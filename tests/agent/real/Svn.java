import java.io.*;
import java.nio.file.*;
import java.util.*;
import org.apache.subversion.javahl.*;
import org.apache.subversion.javahl.types.*;

/** A repository by libsvn-java: streams, callbacks, maps and sets that are made in C++, several clients at once. */
@SuppressWarnings("deprecation")
public class Svn {
    static final Revision HEAD = Revision.HEAD;

    static SVNClient client(String folder) throws Exception {
        SVNClient made = new SVNClient();
        made.setConfigDirectory(folder + "/config");
        made.username("someone");
        return made;
    }

    static void commit(SVNClient client, String path, String message) throws Exception {
        client.commit(Set.of(path), Depth.infinity, false, false, null, Map.of("kind", "a test"), items -> message,
                      info -> System.out.println("committed " + info.getRevision() + " by " + info.getAuthor()));
    }

    /** A working copy in which files come, change and go. */
    static void works(String folder, String url) throws Exception {
        String copy = folder + "/copy", file = copy + "/folder/file.txt";
        SVNClient client = client(folder);
        client.checkout(url, copy, HEAD, HEAD, Depth.infinity, false, false);
        client.mkdir(Set.of(copy + "/folder"), false, null, null, null);
        Files.writeString(Path.of(file), "one\ntwo\nthree\n");
        client.add(file, Depth.infinity, false, false, false);
        client.propertySetLocal(Set.of(file), "note", "a value".getBytes(), Depth.empty, null, false);
        client.status(copy, Depth.infinity, false, true, true, false, false, false, null,
                      (path, status) -> System.out.println(new File(path).getName() + " " + status.getTextStatus()));
        commit(client, copy, "the first");
        Files.writeString(Path.of(file), "one\n2\nthree\nfour\n");
        commit(client, copy, "the second");
    }

    static void reads(String folder, String url) throws Exception {
        SVNClient client = client(folder);
        ByteArrayOutputStream content = new ByteArrayOutputStream(), difference = new ByteArrayOutputStream();
        String file = url + "/folder/file.txt";
        client.streamFileContent(file, Revision.getInstance(1), HEAD, content);
        client.diff(file, Revision.getInstance(1), file, HEAD, null, difference, Depth.infinity, null, false, false,
                    false, false, false, false);
        System.out.println(content.toString().length() + " " + difference.toString().lines().count());
        client.logMessages(url, HEAD, List.of(new RevisionRange(Revision.getInstance(1), HEAD)), false, true,
                           false, Set.of("svn:log"), 0, (changed, revision, properties, hasMore) ->
                               System.out.println(revision + ": " + new String(properties.get("svn:log"))));
        client.list(url, HEAD, HEAD, Depth.infinity, -1, false,
                    (entry, lock) -> System.out.println("entry " + entry.getPath() + " " + entry.getSize()));
        client.blame(file, HEAD, Revision.START, HEAD, false, false,
                     (number, revision, properties, from, merged, path, line, local) ->
                         System.out.println(number + " " + revision + " " + line));
        client.properties(file, HEAD, HEAD, Depth.empty, null,
                          (path, properties) -> System.out.println("note: " + new String(properties.get("note"))));
    }

    static int revisions(String folder, String url) {
        int[] sum = new int[1];
        try {
            SVNClient client = client(folder);
            for (int turn = 0; turn < 20; turn++) {
                client.info(url, HEAD, HEAD, Depth.infinity, false, false, false, null, it -> sum[0] += it.getRev());
            }
            client.dispose();
        } catch (Exception unexpected) {
            throw new IllegalStateException(unexpected);
        }
        return sum[0];
    }

    static void fails(String folder, String url) {
        try {
            client(folder).checkout(url + "/no", folder + "/no", HEAD, HEAD, Depth.empty, false, false);
        } catch (Exception isMissing) {
            System.out.println(isMissing.getClass().getSimpleName());
        }
    }

    public static void main(String[] words) throws Exception {
        File repository = new File(words[0], "repository");
        new SVNRepos().create(repository, true, false, null, "fsfs");
        String url = repository.toURI().toString().replace("file:/", "file:///").replaceAll("/$", "");
        works(words[0], url);
        reads(words[0], url);
        List<Thread> readers = new ArrayList<>();
        for (int at = 0; at < 3; at++) {
            readers.add(new Thread(() -> System.out.println("revisions " + revisions(words[0], url))));
            readers.get(at).start();
        }
        for (Thread reader : readers) {
            reader.join();
        }
        fails(words[0], url);
        new SVNRepos().dump(repository, new ByteArrayOutputStream(), Revision.START, HEAD, false, false, null);
    }
}
