import java.io.IOException;
import java.io.InputStream;
import java.nio.charset.StandardCharsets;
import java.nio.file.Files;
import java.nio.file.Path;
import java.util.Properties;
import java.util.Random;

/**
 * Properties files through java.util.Properties. `make FOLDER N` writes N files of random lines. `check BEFORE AFTER OLD
 * NEW` reads each file of both folders: what stands in AFTER must be what stood in BEFORE, with the key NEW in place of
 * OLD. It prints the number of files that differ. The texts in which the format here differs from Java aren't made.
 */
public class CompareProperties {
    static final String[] KEYS = {"old", "o\\\n  ld", "\\u006fld", "o\\l\\d", "old", "older", "ol", "a.b", "\\#c", "a\\ b", "a\\=b", "x\\:y", "\\t", "!k".replace("!", "\\!"), "\\\\"};
    static final String[] SEPARATORS = {"=", ":", " ", "\t", "\f", " = ", " : ", "\\\n=", " \\\r\n  =\\\n ", "  "};
    static final String[] VALUES = {"", "1", "old", "=old", "a b ", "a\\\n  b", "a\\\\", "\\\\\\\n x", "\\u0041\\t", "\\ud83d\\ude00", "a#b!c", "x\\\r\n\\\r\n y", "\\ 1", "\\q\\\"", "text of some more words"};
    static final String[] ENDS = {"\n", "\n", "\r\n", "\r"};

    static String pick(Random random, String[] texts) {
        return texts[random.nextInt(texts.length)];
    }

    static String line(Random random) {
        switch (random.nextInt(8)) {
            case 0:
                return pick(random, new String[] {"# old=1", "! old=1 \\", "  #old", "\t!old = 2"});
            case 1:
                return pick(random, new String[] {"", " ", "\t\f "});
            case 2:
                return pick(random, KEYS);
            default:
                return pick(random, new String[] {"", "", " ", "\t "}) + pick(random, KEYS) + pick(random, SEPARATORS) + pick(random, VALUES);
        }
    }

    static void make(Path folder, int count) throws IOException {
        Random random = new Random(8);
        for (int n = 0; n < count; n++) {
            StringBuilder text = new StringBuilder();
            int lines = random.nextInt(12);
            for (int k = 0; k < lines; k++) {
                text.append(line(random));
                if (k + 1 < lines || random.nextBoolean()) {
                    text.append(pick(random, ENDS));
                }
            }
            Files.write(folder.resolve("f" + n + ".properties"), text.toString().getBytes(StandardCharsets.US_ASCII));
        }
    }

    static Properties read(Path file) throws IOException {
        Properties properties = new Properties();
        try (InputStream in = Files.newInputStream(file)) {
            properties.load(in);
        }
        return properties;
    }

    static int check(Path before, Path after, String oldKey, String newKey) throws IOException {
        int differ = 0;
        try (var files = Files.list(before)) {
            for (Path file : (Iterable<Path>) files::iterator) {
                Properties wanted = read(file);
                Object value = wanted.remove(oldKey);
                if (value != null) {
                    wanted.put(newKey, value);
                }
                if (!wanted.equals(read(after.resolve(file.getFileName())))) {
                    differ++;
                    System.err.println("differs: " + file);
                }
            }
        }
        return differ;
    }

    public static void main(String[] words) throws IOException {
        if (words[0].equals("make")) {
            make(Path.of(words[1]), Integer.parseInt(words[2]));
        } else {
            System.out.println(check(Path.of(words[1]), Path.of(words[2]), words[3], words[4]));
        }
    }
}
