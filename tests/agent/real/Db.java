import com.sleepycat.db.*;

/** A B-tree by libdb5.3-java: callbacks from C, byte arrays. */
public class Db {
    static void secondary(Database primary, String folder) throws Exception {
        SecondaryConfig config = new SecondaryConfig();
        config.setType(DatabaseType.BTREE);
        config.setAllowCreate(true);
        config.setAllowPopulate(true);
        config.setSortedDuplicates(true);
        config.setKeyCreator((database, key, data, result) -> {
            result.setData(new byte[] {data.getData()[data.getSize() - 1]});
            return true;
        });
        SecondaryDatabase second = new SecondaryDatabase(folder + "/second.db", null, primary, config);
        DatabaseEntry key = new DatabaseEntry("7".getBytes()), first = new DatabaseEntry(), data = new DatabaseEntry();
        System.out.println(second.get(null, key, first, data, LockMode.DEFAULT) + " " + new String(first.getData()));
        second.close();
    }

    static void environment(String folder) throws Exception {
        EnvironmentConfig config = new EnvironmentConfig();
        config.setAllowCreate(true);
        config.setInitializeCache(true);
        config.setInitializeLocking(true);
        config.setInitializeLogging(true);
        config.setTransactional(true);
        config.setErrorHandler((environment, prefix, message) -> System.out.println("error: " + message));
        config.setMessageHandler((environment, message) -> { });
        Environment environment = new Environment(new java.io.File(folder), config);
        Transaction transaction = environment.beginTransaction(null, null);
        DatabaseConfig of = new DatabaseConfig();
        of.setType(DatabaseType.HASH);
        of.setAllowCreate(true);
        Database database = environment.openDatabase(transaction, "hash.db", "name", of);
        database.put(transaction, new DatabaseEntry("k".getBytes()), new DatabaseEntry("v".getBytes()));
        transaction.commit();
        System.out.println(database.getConfig().getType() + " " + environment.getLogStats(null).getRecord());
        database.close();
        try {
            environment.openDatabase(null, "hash.db", "other", null);
        } catch (java.io.FileNotFoundException | DatabaseException isMissing) {
            System.out.println(isMissing.getClass().getSimpleName());
        }
        environment.close();
    }

    interface Run {
        Object run() throws Exception;
    }

    static void step(String name, Run it) {
        Object answer;
        try {
            answer = it.run();
        } catch (Exception thrown) {
            answer = thrown.getClass().getSimpleName() + ": " + thrown.getMessage();
        }
        System.out.println(name + ": " + answer);
    }

    static IllegalStateException thrown(String by) {
        return new IllegalStateException("thrown by the " + by);
    }

    static DatabaseConfig of(DatabaseType type) {
        DatabaseConfig config = new DatabaseConfig();
        config.setType(type);
        config.setAllowCreate(true);
        return config;
    }

    static Object puts(Environment environment, String name, DatabaseConfig config, int count) throws Exception {
        Database database = environment.openDatabase(null, name, null, config);
        try {
            for (int at = 0; at < count; at++) {
                database.put(null, new DatabaseEntry(("key " + at).getBytes()), new DatabaseEntry(new byte[200]));
            }
        } finally {
            database.close();
        }
        return "put " + count;
    }

    /** Each callback throws. */
    static void throwing(Environment environment) {
        step("comparator", () -> {
            DatabaseConfig config = of(DatabaseType.BTREE);
            config.setBtreeComparator((one, other) -> { throw thrown("comparator"); });
            return puts(environment, "compared.db", config, 5);
        });
        step("prefix", () -> {
            DatabaseConfig config = of(DatabaseType.BTREE);
            config.setBtreeComparator((one, other) -> java.util.Arrays.compare((byte[]) one, (byte[]) other));
            config.setBtreePrefixCalculator((database, one, other) -> { throw thrown("prefix calculator"); });
            return puts(environment, "prefixed.db", config, 3000);
        });
        step("hasher", () -> {
            DatabaseConfig config = of(DatabaseType.HASH);
            config.setHasher((database, bytes, length) -> { throw thrown("hasher"); });
            return puts(environment, "hashed.db", config, 1);
        });
        step("key creator", () -> {
            SecondaryConfig config = new SecondaryConfig();
            config.setType(DatabaseType.BTREE);
            config.setAllowCreate(true);
            config.setSortedDuplicates(true);
            config.setKeyCreator((database, key, data, result) -> { throw thrown("key creator"); });
            Database first = environment.openDatabase(null, "first.db", null, of(DatabaseType.BTREE));
            SecondaryDatabase second = environment.openSecondaryDatabase(null, "keys.db", null, first, config);
            try {
                return first.put(null, new DatabaseEntry("k".getBytes()), new DatabaseEntry("v".getBytes()));
            } finally {
                second.close();
                first.close();
            }
        });
        step("error handler", () -> {
            int locker = environment.createLockerID();
            environment.getLock(locker, true, new DatabaseEntry("x".getBytes()), LockRequestMode.WRITE);
            environment.freeLockerID(locker);
            return "freed";
        });
    }

    /** What else an environment has. */
    static void others(Environment environment) {
        step("sequence", () -> {
            Database database = environment.openDatabase(null, "counted.db", null, of(DatabaseType.BTREE));
            SequenceConfig config = new SequenceConfig();
            config.setAllowCreate(true);
            Sequence sequence = database.openSequence(null, new DatabaseEntry("q".getBytes()), config);
            long value = sequence.get(null, 1);
            sequence.close();
            database.close();
            return value;
        });
        step("partition", () -> {
            DatabaseConfig config = of(DatabaseType.BTREE);
            config.setPartitionByCallback(2, (database, key) -> key.getData()[key.getSize() - 1] & 1);
            return puts(environment, "parted.db", config, 4);
        });
        step("queue", () -> {
            DatabaseConfig config = of(DatabaseType.QUEUE);
            config.setRecordLength(10);
            Database queue = environment.openDatabase(null, "queue.db", null, config);
            queue.append(null, new DatabaseEntry(new byte[4]), new DatabaseEntry(new byte[10]));
            int records = ((QueueStats) queue.getStats(null, null)).getNumKeys();
            queue.close();
            return records;
        });
        step("short buffer", () -> {
            Database database = environment.openDatabase(null, "short.db", null, of(DatabaseType.BTREE));
            database.put(null, new DatabaseEntry("k".getBytes()), new DatabaseEntry(new byte[100]));
            DatabaseEntry small = new DatabaseEntry(new byte[2]);
            small.setUserBuffer(2, true);
            try {
                return database.get(null, new DatabaseEntry("k".getBytes()), small, null);
            } finally {
                database.close();
            }
        });
    }

    static void callbacks(String folder) throws Exception {
        java.io.File home = new java.io.File(folder, "home");
        home.mkdir();
        EnvironmentConfig config = new EnvironmentConfig();
        config.setAllowCreate(true);
        config.setInitializeCache(true);
        config.setInitializeLocking(true);
        config.setErrorHandler((environment, prefix, message) -> { throw thrown("error handler"); });
        Environment environment = new Environment(home, config);
        throwing(environment);
        others(environment);
        environment.close();
    }

    public static void main(String[] words) throws Exception {
        DatabaseConfig config = new DatabaseConfig();
        config.setType(DatabaseType.BTREE);
        config.setAllowCreate(true);
        config.setBtreeComparator((one, other) -> {
            byte[] a = (byte[]) one, b = (byte[]) other;
            for (int at = 0; at < Math.min(a.length, b.length); at++) {
                if (a[at] != b[at]) {
                    return b[at] - a[at];
                }
            }
            return b.length - a.length;
        });
        Database database = new Database(words[0] + "/test.db", null, config);
        for (int at = 0; at < 200; at++) {
            DatabaseEntry key = new DatabaseEntry(("key" + at).getBytes());
            database.put(null, key, new DatabaseEntry(("value" + at).getBytes()));
        }
        Cursor cursor = database.openCursor(null, null);
        DatabaseEntry key = new DatabaseEntry(), value = new DatabaseEntry();
        int count = 0;
        while (cursor.getNext(key, value, LockMode.DEFAULT) == OperationStatus.SUCCESS) {
            if (count++ % 60 == 0) {
                System.out.println(new String(key.getData()) + " " + new String(value.getData()));
            }
        }
        cursor.close();
        System.out.println(count);
        System.out.println(database.get(null, new DatabaseEntry("nokey".getBytes()), value, LockMode.DEFAULT));
        secondary(database, words[0]);
        database.close();
        environment(words[0]);
        callbacks(words[0]);
        try {
            new Database("/nowhere/at/all.db", null, new DatabaseConfig());
        } catch (java.io.FileNotFoundException isMissing) {
            System.out.println("no such file");
        }
    }
}
