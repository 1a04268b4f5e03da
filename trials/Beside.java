// LMS of RFC 8554 by Bouncy Castle, for lms.py. Each line of standard input is a question, and each answer is a line. All bytes are
// in hexadecimal digits, and an empty text is a dash:
//     sign TYPE IDENTIFIER SEED LEAF TEXT     PUBLIC SIGNATURE, of a key from the seed, whose one-time keys have Winternitz parameter 4
//     verify PUBLIC SIGNATURE TEXT            yes or no; an exception is a no
import java.io.BufferedReader;
import java.io.InputStreamReader;
import java.util.HashMap;
import java.util.HexFormat;
import java.util.Map;
import org.bouncycastle.pqc.crypto.lms.LMOtsParameters;
import org.bouncycastle.pqc.crypto.lms.LMSPrivateKeyParameters;
import org.bouncycastle.pqc.crypto.lms.LMSPublicKeyParameters;
import org.bouncycastle.pqc.crypto.lms.LMSigParameters;
import org.bouncycastle.pqc.crypto.lms.LMSSigner;

final class Beside {
    private static final HexFormat HEX = HexFormat.of();
    private static final Map<String, LMSigParameters> TREES = Map.of("5", LMSigParameters.lms_sha256_n32_h5,
        "6", LMSigParameters.lms_sha256_n32_h10, "7", LMSigParameters.lms_sha256_n32_h15);
    private static final Map<String, LMSPublicKeyParameters> MADE = new HashMap<>();

    private static byte[] bytes(String digits) {
        return digits.equals("-") ? new byte[0] : HEX.parseHex(digits);
    }

    private static String sign(String[] words) throws Exception {
        LMSigParameters tree = TREES.get(words[1]);
        LMSPrivateKeyParameters key = new LMSPrivateKeyParameters(tree, LMOtsParameters.sha256_n32_w4,
            Integer.parseInt(words[4]), bytes(words[2]), 1 << tree.getH(), bytes(words[3]));
        String seed = words[1] + words[2] + words[3];
        MADE.computeIfAbsent(seed, it -> key.getPublicKey());
        LMSSigner signer = new LMSSigner();
        signer.init(true, key);
        byte[] signature = signer.generateSignature(bytes(words[5]));
        return HEX.formatHex(MADE.get(seed).getEncoded()) + " " + HEX.formatHex(signature);
    }

    private static String verify(String[] words) {
        try {
            LMSSigner signer = new LMSSigner();
            signer.init(false, LMSPublicKeyParameters.getInstance(bytes(words[1])));
            return signer.verifySignature(bytes(words[3]), bytes(words[2])) ? "yes" : "no";
        } catch (Exception refused) {
            return "no";
        }
    }

    public static void main(String[] none) throws Exception {
        BufferedReader questions = new BufferedReader(new InputStreamReader(System.in));
        for (String line = questions.readLine(); line != null; line = questions.readLine()) {
            String[] words = line.split(" ");
            System.out.println(words[0].equals("sign") ? sign(words) : verify(words));
        }
    }
}
