import java.io.ByteArrayInputStream;
import java.nio.file.Files;
import java.nio.file.Paths;
import org.apache.poi.EncryptedDocumentException;
import org.apache.poi.hssf.record.Record;
import org.apache.poi.hssf.record.RecordFactory;
import org.apache.poi.hssf.record.crypto.Biff8EncryptionKey;

/**
 * Prints the records that Apache POI reads from locked streams, each as hexadecimal digits, or that the password is refused, or what else is thrown; and an empty
 * line after each stream. Arguments: stream and password, any number of times.
 */
public class PoiRecords {
    public static void main(String[] args) throws Exception {
        for (int n = 0; n + 1 < args.length; n += 2) {
            System.out.println(lines(Files.readAllBytes(Paths.get(args[n])), args[n + 1]));
        }
    }

    private static String lines(byte[] stream, String password) {
        Biff8EncryptionKey.setCurrentUserPassword(password);
        try {
            StringBuilder lines = new StringBuilder();
            for (Record record : RecordFactory.createRecords(new ByteArrayInputStream(stream))) {
                for (byte b : record.serialize())
                    lines.append(Character.forDigit(b >> 4 & 15, 16)).append(Character.forDigit(b & 15, 16));
                lines.append('\n');
            }
            return lines.toString();
        } catch (EncryptedDocumentException e) {
            return "refused\n";
        } catch (RuntimeException e) {
            return e.getClass().getSimpleName() + "\n";
        }
    }
}
