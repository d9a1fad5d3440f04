// SnakeYAML: its ScannerImpl, and the events and the values of Yaml. What a driver is given and prints is told in turns.h.
import com.sun.management.OperatingSystemMXBean;
import java.io.BufferedReader;
import java.io.InputStreamReader;
import java.io.StringReader;
import java.lang.management.ManagementFactory;
import java.nio.file.Files;
import java.nio.file.Path;
import java.util.Map;
import org.yaml.snakeyaml.LoaderOptions;
import org.yaml.snakeyaml.Yaml;
import org.yaml.snakeyaml.events.Event;
import org.yaml.snakeyaml.reader.StreamReader;
import org.yaml.snakeyaml.scanner.ScannerImpl;

public class SnakeYaml {
    static long takeTokens(LoaderOptions options, String text) {
        ScannerImpl scanner = new ScannerImpl(new StreamReader(text), options);
        long count = 0;
        for (; scanner.checkToken(); scanner.getToken())
            count++;
        return count;
    }

    static long takeEvents(Yaml yaml, String text) {
        long count = 0;
        for (Event event : yaml.parse(new StringReader(text)))
            count++;
        return count;
    }

    static long take(String what, LoaderOptions options, String text) {
        Yaml yaml = new Yaml(options);
        switch (what) {
            case "tokens": return takeTokens(options, text);
            case "events": return takeEvents(yaml, text);
            case "loading": return ((Map<?, ?>) yaml.load(text)).size();
            default: return 0;
        }
    }

    public static void main(String[] words) throws Exception {
        String text = Files.readString(Path.of(words[0]));
        LoaderOptions options = new LoaderOptions();
        options.setCodePointLimit(text.length() + 1);
        OperatingSystemMXBean system = (OperatingSystemMXBean) ManagementFactory.getOperatingSystemMXBean();
        BufferedReader lines = new BufferedReader(new InputStreamReader(System.in));
        for (String line = lines.readLine(); line != null; line = lines.readLine()) {
            long start = system.getProcessCpuTime();
            long count = take(line, options, text);
            System.out.println(count + " " + (system.getProcessCpuTime() - start));
        }
    }
}
