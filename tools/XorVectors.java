import java.io.ByteArrayOutputStream;
import java.nio.file.Files;
import java.nio.file.Paths;
import java.util.Random;
import org.apache.poi.poifs.crypt.CryptoFunctions;

/**
 * Writes crates/vectors/data/xor: for passwords of 1 to 15 characters up to U+007F, what Apache POI 4.0.1 (Debian's libapache-poi-java) makes of
 * them. Run at the root of the project:
 *   java -cp /usr/share/java/poi.jar:/usr/share/java/commons-collections4.jar tools/XorVectors.java
 * For each: the password's length, the password, the key and the verifier as numbers of four bytes, the lower first, and the array of 16 bytes.
 * Above U+007F POI treats a character's byte as a signed number for the verifier and as '?' for the array, which MS-OFFCRYPTO 2.3.7 does not, so
 * those are left out (docs/DIFFERENCES.md). Each byte of POI's array is rotated left by three bits compared with MS-OFFCRYPTO 2.3.7.2; it is rotated back
 * here.
 */
public class XorVectors {
    static void number(ByteArrayOutputStream out, int n) {
        for (int i = 0; i < 4; i++)
            out.write(n >> (8 * i));
    }

    public static void main(String[] args) throws Exception {
        ByteArrayOutputStream out = new ByteArrayOutputStream();
        Random random = new Random(1997);
        for (int length = 1; length <= 15; length++)
            for (int k = 0; k < 8; k++) {
                StringBuilder password = new StringBuilder();
                for (int i = 0; i < length; i++)
                    password.append((char) (1 + random.nextInt(127)));
                String p = password.toString();
                number(out, length);
                for (char c : p.toCharArray())
                    out.write(c);
                number(out, CryptoFunctions.createXorKey1(p));
                number(out, CryptoFunctions.createXorVerifier1(p));
                for (byte b : CryptoFunctions.createXorArray1(p))
                    out.write((b & 255) >> 3 | (b & 255) << 5);
            }
        Files.write(Paths.get("crates/vectors/data/xor"), out.toByteArray());
    }
}
