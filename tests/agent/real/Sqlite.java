import java.sql.*;

/** A database in memory by libxerial-sqlite-jdbc-java: strings, callbacks, exceptions. */
public class Sqlite {
    public static void main(String[] words) throws Exception {
        Class.forName("org.sqlite.JDBC");
        try (Connection connection = DriverManager.getConnection("jdbc:sqlite::memory:")) {
            Statement statement = connection.createStatement();
            statement.executeUpdate("create table t (id integer primary key, name text, data blob, real double)");
            connection.setAutoCommit(false);
            try (PreparedStatement insert = connection.prepareStatement("insert into t values (?, ?, ?, ?)")) {
                for (int id = 0; id < 300; id++) {
                    insert.setInt(1, id);
                    insert.setString(2, "name \u00e4\u20ac " + id);
                    insert.setBytes(3, new byte[] {(byte) id, 2, 3});
                    insert.setDouble(4, id / 3.0);
                    insert.executeUpdate();
                }
            }
            connection.commit();
            org.sqlite.Function.create(connection, "twice", new org.sqlite.Function() {
                @Override
                protected void xFunc() throws SQLException {
                    result(2 * value_int(0));
                }
            });
            org.sqlite.Function.create(connection, "total", new org.sqlite.Function.Aggregate() {
                private int sum;

                @Override
                protected void xStep() throws SQLException {
                    sum += value_int(0);
                }

                @Override
                protected void xFinal() throws SQLException {
                    result(sum);
                }
            });
            String sums = "select sum(twice(id)), total(id), max(name), avg(real) from t";
            try (ResultSet rows = statement.executeQuery(sums)) {
                while (rows.next()) {
                    System.out.println(rows.getInt(1) + " " + rows.getInt(2) + " " + rows.getString(3));
                    System.out.println(rows.getDouble(4));
                }
            }
            try (ResultSet rows = statement.executeQuery("select id, name, data from t where id % 50 = 0")) {
                while (rows.next()) {
                    System.out.println(rows.getInt(1) + " " + rows.getString(2).length() + " " + rows.getBytes(3)[0]);
                }
            }
            try {
                statement.executeUpdate("insert into nowhere values (1)");
            } catch (SQLException isWrong) {
                System.out.println(isWrong.getMessage());
            }
        }
    }
}
