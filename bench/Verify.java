// Bouncy Castle's verdict on the same signatures, for comparison with bench/verify.c: the best of many rounds, after the compiler has warmed up.
import java.nio.file.Files;
import java.nio.file.Paths;
import java.util.Arrays;
import org.bouncycastle.pqc.crypto.lms.LMSPublicKeyParameters;
import org.bouncycastle.pqc.crypto.lms.LMSSigner;

public class Verify {
    static void measure(String path, String name, int hashes) throws Exception {
        byte[] file = Files.readAllBytes(Paths.get(path));
        int end = 56 + 44 + 32 * hashes;
        byte[] signature = Arrays.copyOfRange(file, 56, end), message = Arrays.copyOfRange(file, end, file.length);
        LMSSigner signer = new LMSSigner();
        signer.init(false, LMSPublicKeyParameters.getInstance(Arrays.copyOf(file, 56)));
        double best = 1e9;
        for (int round = 0; round < 400; round++) {
            long start = System.nanoTime();
            if (!signer.verifySignature(message, signature))
                throw new Exception(path + ": not valid");
            best = Math.min(best, (System.nanoTime() - start) / 1e3);
        }
        System.out.printf("%-24s %12.0f%n", name + ", Bouncy Castle", best);
    }

    public static void main(String[] words) throws Exception {
        measure(words[0], "type 4", 34 + 5);
        measure(words[1], "type 3", 67 + 10);
    }
}
