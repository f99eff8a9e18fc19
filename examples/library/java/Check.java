import com.sun.jna.Library;
import com.sun.jna.Native;
import com.sun.jna.ptr.LongByReference;

/**
 * Checks the document on standard input, and writes what `balisecheck check` would write.
 *
 *     java -cp /usr/share/java/jna.jar Check.java [LIBRARY] < FILE
 *
 * LIBRARY is the path of the library if it is not installed.
 */
public class Check {
    static final int MEMORY = 3, CAPACITY = 4;

    /** The calls of balisecheck.h that are used here. A size_t is a long on x86-64. */
    public interface Balisecheck extends Library {
        int balisecheck_check(byte[] input, long inputLength, byte[] buffer, long capacity, LongByReference length);
    }

    public static void main(String[] words) throws java.io.IOException {
        Balisecheck library = Native.load(words.length > 0 ? words[0] : "libbalisecheck.so.0", Balisecheck.class);
        byte[] input = System.in.readAllBytes(), buffer = new byte[4096];
        byte[] data = input.length > 0 ? input : new byte[1]; // (a pointer is never null)
        LongByReference length = new LongByReference();
        int status = library.balisecheck_check(data, input.length, buffer, buffer.length, length);
        while (status == CAPACITY) {
            buffer = new byte[(int) length.getValue()];
            status = library.balisecheck_check(data, input.length, buffer, buffer.length, length);
        }
        System.out.write(buffer, 0, (int) length.getValue());
        System.out.flush();
        if (status == MEMORY) System.err.println("memory ran out");
        System.exit(status);
    }
}
