import java.io.FileInputStream;
import java.io.FileOutputStream;
import java.io.InputStream;
import java.io.OutputStreamWriter;
import java.io.PrintWriter;
import java.nio.charset.StandardCharsets;
import java.util.ArrayList;
import java.util.Comparator;
import java.util.List;
import java.util.Random;
import java.util.stream.Collectors;
import org.openstreetmap.josm.data.coor.LatLon;
import org.openstreetmap.josm.data.osm.DataSet;
import org.openstreetmap.josm.data.osm.Node;
import org.openstreetmap.josm.data.osm.OsmPrimitive;
import org.openstreetmap.josm.data.osm.Relation;
import org.openstreetmap.josm.data.osm.RelationMember;
import org.openstreetmap.josm.data.osm.Way;
import org.openstreetmap.josm.gui.progress.NullProgressMonitor;
import org.openstreetmap.josm.io.OsmReader;
import org.openstreetmap.josm.io.OsmWriter;
import org.openstreetmap.josm.io.OsmWriterFactory;
import org.openstreetmap.josm.spi.preferences.Config;
import org.openstreetmap.josm.spi.preferences.MemoryPreferences;

/**
 * Opens files by JOSM's own reader, edits them at random as a mapper may, and saves them by JOSM's own writer.
 *
 * <p>Arguments: for each file its name, the name to save it as, a seed, and a number of edits. Prints a line for each.
 */
public final class JosmScribble {
    private final DataSet data;
    private final Random dice;

    private JosmScribble(DataSet data, long seed) {
        this.data = data;
        this.dice = new Random(seed);
    }

    /** Edits each file that the arguments name. */
    public static void main(String[] words) throws Exception {
        Config.setPreferencesInstance(new MemoryPreferences());
        for (int at = 0; at < words.length; at += 4) {
            DataSet data;
            try (InputStream file = new FileInputStream(words[at])) {
                data = OsmReader.parseDataSet(file, NullProgressMonitor.INSTANCE);
            }
            JosmScribble mapper = new JosmScribble(data, Long.parseLong(words[at + 2]));
            for (int count = Integer.parseInt(words[at + 3]); count > 0; count--) {
                mapper.edit();
            }
            try (PrintWriter file = new PrintWriter(new OutputStreamWriter(new FileOutputStream(words[at + 1]), StandardCharsets.UTF_8));
                    OsmWriter writer = OsmWriterFactory.createOsmWriter(file, false, "0.6")) {
                writer.write(data);
            }
            System.out.println(words[at + 1] + " " + data.allPrimitives().size());
        }
    }

    private <T extends OsmPrimitive> T any(List<T> found) {
        return found.isEmpty() ? null : found.get(dice.nextInt(found.size()));
    }

    /** Objects that can be edited, in an order that doesn't depend on their hashes. */
    private <T extends OsmPrimitive> List<T> usable(java.util.Collection<T> all) {
        return all.stream().filter(OsmPrimitive::isUsable)
            .sorted(Comparator.comparingLong(OsmPrimitive::getUniqueId)).collect(Collectors.toList());
    }

    private void edit() {
        List<Node> nodes = usable(data.getNodes());
        List<Way> ways = usable(data.getWays());
        List<Relation> relations = usable(data.getRelations());
        List<OsmPrimitive> all = new ArrayList<>(nodes);
        all.addAll(ways);
        all.addAll(relations);
        OsmPrimitive one = any(all);
        Node node = any(nodes);
        if (one == null || node == null) {
            return;
        }
        switch (dice.nextInt(6)) {
            case 0:
                one.put("name", "Ada's \"Lane\" <" + dice.nextInt(10) + ">\n");
                one.setModified(true);
                break;
            case 1:
                node.setCoor(new LatLon(dice.nextInt(1_000_000_000) / 1e8, dice.nextInt(2_000_000_000) / 1e7 - 100));
                node.setModified(true);
                break;
            case 2:
                draw(node, one);
                break;
            case 3:
                lengthen(any(ways), node);
                break;
            case 4:
                exchangeMember(any(relations), node);
                break;
            default:
                if (one.getReferrers().isEmpty()) {
                    one.setDeleted(true);
                }
        }
    }

    private void draw(Node end, OsmPrimitive member) {
        Node node = new Node(new LatLon(47.5, dice.nextInt(100) / 10.0));
        data.addPrimitive(node);
        Way way = new Way();
        way.addNode(node);
        way.addNode(end);
        way.put("highway", "path");
        data.addPrimitive(way);
        Relation site = new Relation();
        site.put("type", "site");
        site.addMember(new RelationMember("a", way));
        site.addMember(new RelationMember("", member));
        data.addPrimitive(site);
    }

    private void lengthen(Way way, Node node) {
        if (way != null) {
            way.addNode(node);
            way.setModified(true);
        }
    }

    private void exchangeMember(Relation relation, Node node) {
        if (relation != null) {
            if (relation.getMembersCount() > 0) {
                relation.removeMember(0);
            }
            relation.addMember(new RelationMember("x", node));
            relation.setModified(true);
        }
    }
}
