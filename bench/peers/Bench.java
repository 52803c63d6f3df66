import java.nio.file.Files;
import java.nio.file.Paths;
import java.sql.CallableStatement;
import java.sql.Connection;
import java.sql.DriverManager;
import java.sql.ResultSet;
import java.sql.SQLException;
import java.sql.Statement;
import java.sql.Types;

/**
 * Runs a workload in an HSQLDB that is kept in memory: java Bench FILE TIMES.
 *
 * A line ---- divides the file into what is done once, and what is done before, as and after each measured run. A line / ends a
 * statement. Each run prints the seconds at its beginning and its end, and the values of parameters and rows.
 */
public class Bench {
    public static void main(String[] words) throws Exception {
        String[] parts = Files.readString(Paths.get(words[0])).split("----\n", -1);
        try (Connection connection = DriverManager.getConnection("jdbc:hsqldb:mem:bench", "SA", "")) {
            connection.setAutoCommit(false);
            execute(connection, parts[0]);
            for (int time = Integer.parseInt(words[1]); time > 0; time--) {
                execute(connection, parts[1]);
                String[] run = statements(parts[2]);
                mark("START");
                for (String statement : run) execute1(connection, statement);
                mark("END");
                connection.commit();
                execute(connection, parts[3]);
            }
        }
    }

    static void mark(String word) {
        System.out.println(word + " " + System.nanoTime() / 1e9);
    }

    static String[] statements(String part) {
        return part.isBlank() ? new String[0] : part.split("\n/\n");
    }

    static void execute(Connection connection, String part) throws SQLException {
        for (String statement : statements(part)) execute1(connection, statement);
        connection.commit();
    }

    static void execute1(Connection connection, String text) throws SQLException {
        if (text.endsWith("?)")) {
            try (CallableStatement call = connection.prepareCall("{" + text + "}")) {
                call.registerOutParameter(1, Types.BIGINT);
                call.execute();
                System.out.println(call.getLong(1));
            }
            return;
        }
        try (Statement statement = connection.createStatement()) {
            if (!statement.execute(text)) return;
            try (ResultSet rows = statement.getResultSet()) {
                while (rows.next()) System.out.println(rows.getLong(1) + " " + rows.getLong(2));
            }
        }
    }
}
