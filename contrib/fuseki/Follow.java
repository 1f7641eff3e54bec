import java.io.IOException;
import java.io.PrintStream;
import java.net.HttpURLConnection;
import java.net.URL;
import java.nio.charset.StandardCharsets;
import java.util.ArrayList;
import java.util.Iterator;
import java.util.List;
import java.util.Locale;
import java.util.UUID;
import java.util.function.Consumer;
import java.util.regex.Matcher;
import java.util.regex.Pattern;
import org.apache.jena.atlas.io.AWriter;
import org.apache.jena.atlas.io.StringWriterI;
import org.apache.jena.atlas.json.JSON;
import org.apache.jena.atlas.json.JsonException;
import org.apache.jena.atlas.json.JsonObject;
import org.apache.jena.graph.Node;
import org.apache.jena.graph.NodeFactory;
import org.apache.jena.riot.RiotException;
import org.apache.jena.riot.out.NodeFormatterNT;
import org.apache.jena.riot.system.RiotLib;
import org.apache.jena.riot.tokens.Token;
import org.apache.jena.riot.tokens.TokenType;
import org.apache.jena.riot.tokens.Tokenizer;
import org.apache.jena.riot.tokens.TokenizerText;
import org.apache.jena.shared.JenaException;
import org.apache.jena.sparql.core.DatasetGraph;
import org.apache.jena.sparql.core.Quad;
import org.apache.jena.system.Txn;
import org.apache.jena.tdb2.DatabaseMgr;
import org.apache.jena.tdb2.store.NodeId;
import org.apache.jena.tdb2.store.NodeIdInline;

/**
 * Keeps a TDB2 dataset in step with a log of an rdfdelta server.
 *
 * <p>The version and the id of the newest patch that was taken stand in a graph of the follower's own, and are written
 * in the transaction of the patches. So wherever the program is killed, the dataset is that of the version that it has.
 */
public final class Follow {
    private static final String USAGE = """
        usage: follow FOLDER ADDRESS NAME [SECONDS]
                 takes the patches of the log NAME of the server at ADDRESS, as 127.0.0.1:10660, behind those that the
                 TDB2 dataset in FOLDER has; each so many seconds again, or once
               follow FOLDER
                 prints the dataset as rows of a patch, behind a comment with its version and the newest patch's id""";

    private static final Node OWN_GRAPH = NodeFactory.createURI("urn:x-rdfdelta:follow");
    private static final Node OWN_LOG = NodeFactory.createURI("urn:x-rdfdelta:log");
    private static final Node VERSION = NodeFactory.createURI("urn:x-rdfdelta:version");
    private static final Node HEAD = NodeFactory.createURI("urn:x-rdfdelta:head");

    // Each transaction of TDB2 copies the blocks that it changes, so the patches of a long log share some.
    private static final int MOST_PATCHES = 100;
    private static final int MOST_BYTES = 4_194_304;

    private static boolean toldOfForm;

    /** Labels as they are: Jena would write others, which are safe whatever its labels are made of. */
    private static final NodeFormatterNT FORMATTER = new NodeFormatterNT() {
        @Override
        public void formatBNode(AWriter out, String label) {
            out.print("_:");
            out.print(label);
        }
    };

    /** Where a log or a dataset stands: a version, and the id of its patch, which is null at version 0. */
    private record State(long version, UUID head) {
        String id() {
            return head == null ? "none" : head.toString();
        }
    }

    /** A patch: its id, that of the patch before it, and its changes in their order. */
    private record Patch(UUID id, UUID prev, List<Consumer<DatasetGraph>> changes) {}

    /** The end of the program, with the status that the program rdfdelta has for it. */
    private static final class Stop extends Exception {
        private final int status;

        Stop(int status, String line) {
            super(line);
            this.status = status;
        }
    }

    public static void main(String[] words) throws InterruptedException {
        try {
            run(words);
        } catch (Stop stop) {
            System.err.println("follow: " + stop.getMessage());
            System.exit(stop.status);
        }
    }

    private static void run(String[] words) throws Stop, InterruptedException {
        boolean repeats = words.length == 4;
        if (words.length != 1 && words.length != 3 && !(repeats && words[3].matches("[0-9]{1,6}"))) {
            throw new Stop(2, USAGE);
        }
        DatasetGraph dataset = open(words[0]);
        if (words.length == 1) {
            print(dataset, new PrintStream(System.out, false, StandardCharsets.UTF_8));
            return;
        }
        Log log = new Log(words[1], words[2]);
        long told = -1;
        while (true) {
            long version = catchUp(dataset, log);
            if (version != told) {
                System.out.println("caught up at version " + version);
                told = version;
            }
            if (!repeats) {
                return;
            }
            Thread.sleep(1_000 * Long.parseLong(words[3]));
        }
    }

    private static DatasetGraph open(String folder) throws Stop {
        try {
            return DatabaseMgr.connectDatasetGraph(folder);
        } catch (JenaException fault) {
            throw new Stop(5, fault.getMessage());
        }
    }

    /** Takes all patches that the log has now behind those of the dataset; the version then. */
    private static long catchUp(DatasetGraph dataset, Log log) throws Stop {
        State mine = Txn.calculateRead(dataset, () -> stateOf(dataset));
        State theirs = log.state();
        if (theirs.version < mine.version) {
            throw new Stop(10, "peer behind: have " + mine.version + ", peer " + theirs.version);
        }
        if (theirs.version == mine.version && !theirs.id().equals(mine.id())) {
            throw diverged(mine, theirs.head);
        }
        while (mine.version < theirs.version) {
            mine = takeSome(dataset, log, mine, theirs.version);
        }
        return mine.version;
    }

    /** Takes the next patches up to a version, at most so many as one transaction is to have. */
    private static State takeSome(DatasetGraph dataset, Log log, State mine, long last) throws Stop {
        List<Consumer<DatasetGraph>> changes = new ArrayList<>();
        State then = mine;
        Stop stop = null;
        int patches = 0;
        int bytes = 0;
        while (then.version < last && patches < MOST_PATCHES && bytes < MOST_BYTES && stop == null) {
            try {
                String text = log.fetch(then.version + 1);
                Patch patch = new PatchReader(text).read(then.version + 1);
                if (!new State(0, patch.prev).id().equals(then.id())) {
                    throw diverged(then, patch.prev);
                }
                changes.addAll(patch.changes);
                then = new State(then.version + 1, patch.id);
                patches++;
                bytes += text.length();
            } catch (Stop atThisPatch) {
                stop = atThisPatch;
            }
        }
        State reached = then;
        Txn.executeWrite(dataset, () -> {
            changes.forEach(change -> change.accept(dataset));
            setState(dataset, reached);
        });
        // What came before the patch that can't be taken is in the dataset now.
        if (stop != null) {
            throw stop;
        }
        return reached;
    }

    private static Stop diverged(State mine, UUID found) {
        String ids = "have " + mine.id() + ", found " + new State(0, found).id();
        return new Stop(10, "diverged at version " + mine.version + ": " + ids);
    }

    private static State stateOf(DatasetGraph dataset) {
        Node version = own(dataset, VERSION);
        if (version == null) {
            return new State(0, null);
        }
        Node head = own(dataset, HEAD);
        UUID id = UUID.fromString(head.getLiteralLexicalForm());
        return new State(Long.parseLong(version.getLiteralLexicalForm()), id);
    }

    private static Node own(DatasetGraph dataset, Node predicate) {
        Iterator<Quad> found = dataset.find(OWN_GRAPH, OWN_LOG, predicate, Node.ANY);
        return found.hasNext() ? found.next().getObject() : null;
    }

    private static void setState(DatasetGraph dataset, State state) {
        if (state.version > 0) {
            dataset.deleteAny(OWN_GRAPH, Node.ANY, Node.ANY, Node.ANY);
            dataset.add(OWN_GRAPH, OWN_LOG, VERSION, NodeFactory.createLiteral(Long.toString(state.version)));
            dataset.add(OWN_GRAPH, OWN_LOG, HEAD, NodeFactory.createLiteral(state.id()));
        }
    }

    /** Prints the dataset as rows, with labels and forms as TDB2 has them. */
    private static void print(DatasetGraph dataset, PrintStream out) {
        Txn.executeRead(dataset, () -> {
            State state = stateOf(dataset);
            out.println("# version " + state.version + " head " + state.id());
            dataset.prefixes().forEach((prefix, iri) -> out.println(
                "PA " + text(NodeFactory.createLiteral(prefix)) + " " + text(NodeFactory.createURI(iri)) + " ."));
            dataset.find().forEachRemaining(quad -> {
                if (!quad.getGraph().equals(OWN_GRAPH)) {
                    out.println("A " + text(quad) + " .");
                }
            });
        });
        out.flush();
    }

    private static String text(Quad quad) {
        String graph = quad.isDefaultGraph() ? "" : " " + text(quad.getGraph());
        return text(quad.getSubject()) + " " + text(quad.getPredicate()) + " " + text(quad.getObject()) + graph;
    }

    private static String text(Node node) {
        StringWriterI out = new StringWriterI();
        FORMATTER.format(out, node);
        return out.toString();
    }

    /** A log of a server, asked over connections that end behind each answer: a kept one would hold a worker. */
    private record Log(String address, String name) {
        private static final int CONNECT_MILLISECONDS = 5_000;
        private static final int ANSWER_MILLISECONDS = 30_000;

        State state() throws Stop {
            String text = get("/" + name);
            try {
                JsonObject answer = JSON.parse(text);
                long version = answer.get("version").getAsNumber().value().longValue();
                String head = version == 0 ? null : answer.get("head").getAsString().value();
                return new State(version, head == null ? null : UUID.fromString(head));
            } catch (JsonException | NullPointerException | IllegalArgumentException fault) {
                throw new Stop(7, "answer not understood: " + text.lines().findFirst().orElse(""));
            }
        }

        String fetch(long version) throws Stop {
            return get("/" + name + "/" + version);
        }

        private String get(String path) throws Stop {
            try {
                HttpURLConnection link = (HttpURLConnection) new URL("http://" + address + path).openConnection();
                link.setRequestProperty("Connection", "close");
                link.setConnectTimeout(CONNECT_MILLISECONDS);
                link.setReadTimeout(ANSWER_MILLISECONDS);
                link.setInstanceFollowRedirects(false);
                boolean isGood = link.getResponseCode() == HttpURLConnection.HTTP_OK;
                try (var body = isGood ? link.getInputStream() : link.getErrorStream()) {
                    String text = body == null ? "" : new String(body.readAllBytes(), StandardCharsets.UTF_8);
                    if (!isGood) {
                        throw new Stop(1, "refused: " + link.getResponseCode() + " " + text);
                    }
                    return text;
                }
            } catch (IOException fault) {
                throw new Stop(6, "link failed: " + address + ": " + fault.getMessage());
            }
        }
    }

    /** Reads the rows of a patch by Jena's tokenizer. The server has seen that they are a patch. */
    private static final class PatchReader {
        private static final Pattern UUID_PARTS =
            Pattern.compile("(?:urn:)?(?:uuid:)?\\{?(\\p{XDigit}{8})-?(\\p{XDigit}{4})-?(\\p{XDigit}{4})-?"
                + "(\\p{XDigit}{4})-?(\\p{XDigit}{12})}?");

        private final Tokenizer tokens;
        private final List<Consumer<DatasetGraph>> changes = new ArrayList<>();
        private UUID id;
        private UUID prev;
        private int blockBegin;

        PatchReader(String text) {
            tokens = TokenizerText.create().fromString(text).build();
        }

        Patch read(long version) throws Stop {
            try {
                while (tokens.hasNext()) {
                    takeRow(tokens.next());
                }
                return new Patch(id, prev, changes);
            } catch (RiotException fault) {
                throw new Stop(3, "patch " + version + ": Jena can't take it: " + fault.getMessage());
            }
        }

        private void takeRow(Token code) {
            List<Token> parts = new ArrayList<>();
            while (tokens.hasNext() && !tokens.peek().hasType(TokenType.DOT)) {
                parts.add(tokens.next());
            }
            if (!tokens.hasNext() || !code.hasType(TokenType.KEYWORD)) {
                throw fault(code, "no row");
            }
            tokens.next();
            switch (code.getImage()) {
                case "H" -> takeHeader(parts);
                case "TX" -> blockBegin = changes.size();
                case "TC" -> { }
                case "TA" -> changes.subList(blockBegin, changes.size()).clear();
                case "A", "D", "PA", "PD" -> changes.add(change(code, parts));
                default -> throw fault(code, "no code: " + code.getImage());
            }
        }

        private void takeHeader(List<Token> parts) {
            switch (parts.get(0).getImage()) {
                case "id" -> id = uuid(parts.get(1));
                case "prev", "previous" -> prev = uuid(parts.get(1));
                default -> { }
            }
        }

        private Consumer<DatasetGraph> change(Token code, List<Token> parts) {
            int least = switch (code.getImage()) {
                case "PD" -> 1;
                case "PA" -> 2;
                default -> 3;
            };
            if (parts.size() < least || parts.size() > least + 1) {
                throw fault(code, "too few or too many terms");
            }
            Node graph = parts.size() == least ? null : node(parts.get(least));
            if (graph != null && isTaken(graph)) {
                throw fault(code, "the graph <" + graph + "> is the follower's own or Jena's");
            }
            String prefix = parts.get(0).getImage();
            switch (code.getImage()) {
                case "PA":
                    String iri = parts.get(1).getImage();
                    // Jena 4.5 has one list of prefixes for all graphs: one of a graph would change the dataset's.
                    return graph != null ? dataset -> { } : dataset -> dataset.prefixes().add(prefix, iri);
                case "PD":
                    return graph != null ? dataset -> { } : dataset -> dataset.prefixes().delete(prefix);
                default:
                    Node name = graph == null ? Quad.defaultGraphNodeGenerated : graph;
                    Quad quad = new Quad(name, node(parts.get(0)), node(parts.get(1)), node(parts.get(2)));
                    return code.getImage().equals("A") ? dataset -> dataset.add(quad) : dataset -> dataset.delete(quad);
            }
        }

        /** Whether a name stands for another graph here: the follower's, the default one, or the union of all. */
        private static boolean isTaken(Node graph) {
            return graph.equals(OWN_GRAPH) || Quad.isDefaultGraph(graph) || Quad.isUnionGraph(graph);
        }

        /** A term. Tags are in lower case, as the log compares them: to TDB2 they would be two terms. */
        private static Node node(Token token) {
            Node node = switch (token.getType()) {
                case IRI -> RiotLib.createIRIorBNode(token.getImage());
                case LITERAL_LANG ->
                    NodeFactory.createLiteral(token.getImage(), token.getImage2().toLowerCase(Locale.ROOT));
                case BNODE, STRING, LITERAL_DT -> token.asNode();
                default -> null;
            };
            if (node == null) {
                throw fault(token, "no term: " + token.text());
            }
            tellOfForm(node);
            return node;
        }

        private static UUID uuid(Token token) {
            Matcher found = UUID_PARTS.matcher(token.getImage());
            if (!found.matches()) {
                throw fault(token, "no id: " + token.getImage());
            }
            return UUID.fromString(found.replaceFirst("$1-$2-$3-$4-$5"));
        }

        private static RiotException fault(Token token, String what) {
            return new RiotException("[line: " + token.getLine() + ", col: " + token.getColumn() + "] " + what);
        }
    }

    /** Tells of the first term that TDB2 keeps by its value alone, as a number: two forms of it are one term there. */
    private static void tellOfForm(Node node) {
        NodeId value = toldOfForm || !node.isLiteral() ? null : NodeIdInline.inline(node);
        if (value != null && !NodeIdInline.extract(value).equals(node)) {
            toldOfForm = true;
            System.err.println("follow: TDB2 keeps values and not forms: " + text(node) + " is "
                + text(NodeIdInline.extract(value)) + "; of others nothing is said");
        }
    }

    private Follow() {}
}
