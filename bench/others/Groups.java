// The jobs of run.py with streams of Java: java Groups JOB FILE
import java.io.BufferedWriter;
import java.io.FileDescriptor;
import java.io.FileOutputStream;
import java.io.IOException;
import java.io.OutputStreamWriter;
import java.io.Writer;
import java.nio.charset.StandardCharsets;
import java.nio.file.Files;
import java.nio.file.Path;
import java.util.ArrayList;
import java.util.Comparator;
import java.util.List;
import java.util.Map;
import java.util.regex.MatchResult;
import java.util.regex.Pattern;
import java.util.stream.Collectors;
import java.util.stream.Stream;

public class Groups {
    record Event(long time, String key, String part) {
        static Event of(String line) {
            int first = line.indexOf('\t'), second = line.indexOf('\t', first + 1);
            return new Event(Long.parseLong(line, 0, first, 10), line.substring(first + 1, second), line.substring(second + 1));
        }

        Cell minute() {
            return new Cell(Math.floorDiv(time, MINUTE) * MINUTE, key);
        }
    }

    record Cell(long start, String key) {}

    record Session(long start, long end, String key, long count) {}

    static final long MINUTE = 60_000, GAP = 10_000;
    static final Comparator<String> ORDER = Comparator.comparingInt(String::length).thenComparing(Comparator.naturalOrder());
    static final Comparator<Cell> CELLS = Comparator.comparingLong(Cell::start).thenComparing(Cell::key, ORDER);
    static final Comparator<Session> SESSIONS =
        Comparator.comparingLong(Session::start).thenComparingLong(Session::end).thenComparing(Session::key, ORDER);
    static final Pattern WORD = Pattern.compile("[A-Za-z0-9]+");

    static String pane(long start, long end, String value) {
        return start + "\t" + end + "\tON_TIME\t0\t" + value + "\n";
    }

    static Stream<String> grouped(Stream<Event> events) {
        return events.collect(Collectors.groupingBy(Event::minute, Collectors.mapping(Event::part, Collectors.toList())))
            .entrySet().stream().sorted(Map.Entry.comparingByKey(CELLS)).map(entry -> {
                entry.getValue().sort(ORDER);
                Cell cell = entry.getKey();
                return pane(cell.start, cell.start + MINUTE, "(\"" + cell.key + "\",[\"" + String.join("\",\"", entry.getValue()) + "\"])");
            });
    }

    static Stream<String> sums(Stream<Event> events) {
        return events.collect(Collectors.groupingBy(Event::minute, Collectors.summingLong(event -> Long.parseLong(event.part))))
            .entrySet().stream().sorted(Map.Entry.comparingByKey(CELLS)).map(entry -> {
                Cell cell = entry.getKey();
                return pane(cell.start, cell.start + MINUTE, "(\"" + cell.key + "\"," + entry.getValue() + ")");
            });
    }

    static Stream<String> sessions(Stream<Event> events) {
        return events.collect(Collectors.groupingBy(Event::key, Collectors.mapping(Event::time, Collectors.toList())))
            .entrySet().stream().flatMap(entry -> sessionsOf(entry.getKey(), entry.getValue()).stream()).sorted(SESSIONS)
            .map(session -> pane(session.start, session.end, "(\"" + session.key + "\"," + session.count + ")"));
    }

    static List<Session> sessionsOf(String key, List<Long> times) {
        List<Session> found = new ArrayList<>();
        times.sort(null);
        long first = times.get(0), last = first, count = 0;
        for (long time : times) {
            if (time >= last + GAP) {
                found.add(new Session(first, last + GAP, key, count));
                first = time;
                count = 0;
            }
            last = time;
            count++;
        }
        found.add(new Session(first, last + GAP, key, count));
        return found;
    }

    static Stream<String> words(Stream<String> lines) {
        return lines.flatMap(line -> WORD.matcher(line).results().map(MatchResult::group))
            .collect(Collectors.groupingBy(word -> word, Collectors.counting()))
            .entrySet().stream().sorted(Map.Entry.comparingByKey(ORDER))
            .map(entry -> pane(-9223372036854775L, 9223372036854776L, "(\"" + entry.getKey() + "\"," + entry.getValue() + ")"));
    }

    public static void main(String[] args) throws IOException {
        try (Stream<String> lines = Files.lines(Path.of(args[1]), StandardCharsets.ISO_8859_1);
            Writer out = new BufferedWriter(new OutputStreamWriter(new FileOutputStream(FileDescriptor.out), StandardCharsets.ISO_8859_1))) {
            Stream<String> panes = switch (args[0]) {
                case "panes" -> grouped(lines.map(Event::of));
                case "keep" -> grouped(lines.map(Event::of).filter(event -> event.key.startsWith("keep")));
                case "sums" -> sums(lines.map(Event::of));
                case "sessions" -> sessions(lines.map(Event::of));
                case "words" -> words(lines);
                default -> throw new IllegalArgumentException(args[0]);
            };
            for (String pane : (Iterable<String>) panes::iterator) {
                out.write(pane);
            }
        }
    }
}
