import java.io.ByteArrayInputStream;
import java.io.DataInputStream;
import java.io.IOException;
import java.nio.ByteBuffer;
import java.nio.file.Paths;
import java.util.ArrayList;
import java.util.Arrays;
import java.util.Collections;
import java.util.List;
import java.util.Map;
import org.cmcache.AnnotationRecord;
import org.cmcache.Attribute;
import org.cmcache.Attributed;
import org.cmcache.CacheException;
import org.cmcache.ClassCache;
import org.cmcache.ClassRecord;
import org.cmcache.Code;
import org.cmcache.Constant;
import org.cmcache.Member;
import org.cmcache.Pending;
import org.objectweb.asm.ClassReader;
import org.objectweb.asm.Type;
import org.objectweb.asm.tree.AnnotationNode;
import org.objectweb.asm.tree.ClassNode;
import org.objectweb.asm.tree.FieldNode;
import org.objectweb.asm.tree.MethodNode;
import org.objectweb.asm.tree.TryCatchBlockNode;

/**
 * What records say of the classes in jars and folders, line by line beside what ASM reads of their
 * class files: members, annotations, constants. All are defined in a new cache, which is opened
 * again.
 *
 * <pre>Beside FILE PATH..</pre>
 */
final class Beside {
    private static final Checks CHECKS = new Checks();
    private static final int SYNTHETIC = 0x1000;

    private Beside() {}

    // ---- by records

    private static String text(ClassRecord record, Attributed part, String name) {
        return part.attribute(name)
                .map(found -> record.constant(found.content().getChar()).get().text())
                .orElse("none");
    }

    private static int flags(int flags, Attributed part) {
        return part.attribute("Synthetic").isPresent() ? flags | SYNTHETIC : flags;
    }

    private static List<String> lines(ClassRecord record) {
        List<String> lines = new ArrayList<>();
        lines.add("class " + record.name() + " " + flags(record.accessFlags(), record) + " "
                + record.superName().orElse(null) + " " + record.interfaces() + " "
                + text(record, record, "Signature") + " " + text(record, record, "SourceFile"));
        annotations("class", record.annotations(), lines);
        for (Member field : record.fields()) {
            lines.add("field " + field.name() + " " + field.descriptor() + " "
                    + flags(field.accessFlags(), field) + " " + text(record, field, "Signature")
                    + " " + record.field(field.name(), field.descriptor()).isPresent()
                    + field.code().isPresent() + field.isMethod());
            annotations("field", field.annotations(), lines);
        }
        for (Member method : record.methods()) {
            method(record, method, lines);
        }
        for (int index = 0; index < record.constantCount(); index++) {
            record.constant(index).ifPresent(constant -> lines.add(constant(constant)));
        }
        return lines;
    }

    private static void method(ClassRecord record, Member method, List<String> lines) {
        lines.add("method " + method.name() + " " + method.descriptor() + " "
                + flags(method.accessFlags(), method) + " "
                + text(record, method, "Signature") + " " + exceptions(record, method) + " "
                + record.method(method.name(), method.descriptor()).isPresent()
                + method.isMethod());
        annotations("method", method.annotations(), lines);
        for (List<AnnotationRecord> list : method.parameterAnnotations()) {
            annotations("parameter", list, lines);
        }
        method.annotationDefault().ifPresent(value -> lines.add("default " + value(value)));
        method.code().ifPresent(code -> code(code, lines));
    }

    private static List<String> exceptions(ClassRecord record, Member method) {
        List<String> names = new ArrayList<>();
        method.attribute("Exceptions").ifPresent(attribute -> {
            ByteBuffer content = attribute.content();
            for (int left = content.getChar(); left > 0; left--) {
                names.add(record.constant(content.getChar()).get().text());
            }
        });
        return names;
    }

    private static void code(Code code, List<String> lines) {
        int most = code.instructions().remaining();
        boolean isInside = true;
        List<String> types = new ArrayList<>();
        for (Code.Handler handler : code.handlers()) {
            types.add(handler.catchType().orElse(null));
            isInside &= handler.start() < handler.end() && handler.end() <= most
                    && handler.handler() < most;
        }
        int lineTables = 0;
        for (Attribute attribute : code.attributes()) {
            lineTables += attribute.name().equals("LineNumberTable") ? 1 : 0;
        }
        lines.add("code " + code.maxStack() + " " + code.maxLocals() + " " + types + " " + isInside
                + " " + (lineTables > 0));
    }

    private static void annotations(String of, List<AnnotationRecord> found, List<String> lines) {
        for (AnnotationRecord annotation : found) {
            lines.add(of + " " + annotation.isVisible() + value(annotation));
        }
    }

    private static String value(Object value) {
        if (value instanceof AnnotationRecord) {
            AnnotationRecord annotation = (AnnotationRecord) value;
            List<String> values = new ArrayList<>();
            annotation.values().forEach((name, each) -> values.add(name + "=" + value(each)));
            return "@" + annotation.type() + values;
        }
        if (value instanceof AnnotationRecord.EnumValue) {
            AnnotationRecord.EnumValue constant = (AnnotationRecord.EnumValue) value;
            return "enum " + constant.type() + " " + constant.name();
        }
        if (value instanceof AnnotationRecord.ClassValue) {
            return "class " + ((AnnotationRecord.ClassValue) value).descriptor();
        }
        return plain(value, Beside::value);
    }

    private interface Shown {
        String show(Object value);
    }

    private static String plain(Object value, Shown each) {
        if (value instanceof List) {
            List<String> values = new ArrayList<>();
            ((List<?>) value).forEach(one -> values.add(each.show(one)));
            return values.toString();
        }
        return value.getClass().getSimpleName() + " " + value;
    }

    private static String constant(Constant constant) {
        String line = constant.index() + " " + constant.kind().tag() + " ";
        switch (constant.kind()) {
            case UTF8:
            case CLASS:
            case STRING:
            case METHOD_TYPE:
                return line + constant.text();
            case INTEGER:
            case FLOAT:
            case LONG:
            case DOUBLE:
                return line + constant.number() + " " + constant.bits();
            case NAME_AND_TYPE:
                return line + constant.name() + " " + constant.descriptor();
            case METHOD_HANDLE:
                return line + constant.referenceKind() + " " + constant.reference().index();
            case INVOKE_DYNAMIC:
                return line + constant.bootstrapMethod() + " " + constant.name() + " "
                        + constant.descriptor();
            default:
                return line + constant.owner() + " " + constant.name() + " "
                        + constant.descriptor();
        }
    }

    // ---- by ASM

    private static List<String> lines(byte[] file) throws IOException {
        ClassReader reader = new ClassReader(file);
        ClassNode node = new ClassNode();
        reader.accept(node, 0);
        List<String> lines = new ArrayList<>();
        lines.add("class " + node.name + " " + (node.access & 0xffff) + " " + node.superName + " "
                + node.interfaces + " " + orNone(node.signature) + " " + orNone(node.sourceFile));
        annotations("class", node.visibleAnnotations, node.invisibleAnnotations, lines);
        for (FieldNode field : node.fields) {
            lines.add("field " + field.name + " " + field.desc + " " + (field.access & 0xffff) + " "
                    + orNone(field.signature) + " truefalsefalse");
            annotations("field", field.visibleAnnotations, field.invisibleAnnotations, lines);
        }
        for (MethodNode method : node.methods) {
            method(method, lines);
        }
        for (int index = 1; index < reader.getItemCount(); index++) {
            if (reader.getItem(index) > 0) {
                lines.add(constant(reader, file, index));
            }
        }
        return lines;
    }

    private static String orNone(String text) {
        return text == null ? "none" : text;
    }

    private static void method(MethodNode method, List<String> lines) {
        lines.add("method " + method.name + " " + method.desc + " " + (method.access & 0xffff)
                + " " + orNone(method.signature) + " " + method.exceptions + " truetrue");
        annotations("method", method.visibleAnnotations, method.invisibleAnnotations, lines);
        List<AnnotationNode>[] visible = method.visibleParameterAnnotations;
        List<AnnotationNode>[] invisible = method.invisibleParameterAnnotations;
        int count = Math.max(visible == null ? 0 : visible.length,
                invisible == null ? 0 : invisible.length);
        for (int at = 0; at < count; at++) {
            annotations("parameter", visible == null ? null : visible[at],
                    invisible == null ? null : invisible[at], lines);
        }
        if (method.annotationDefault != null) {
            lines.add("default " + node(method.annotationDefault));
        }
        if (method.instructions.size() > 0) {
            List<String> types = new ArrayList<>();
            for (TryCatchBlockNode handler : method.tryCatchBlocks) {
                types.add(handler.type);
            }
            boolean hasLines = Arrays.stream(method.instructions.toArray())
                    .anyMatch(each -> each.getClass().getSimpleName().equals("LineNumberNode"));
            lines.add("code " + method.maxStack + " " + method.maxLocals + " " + types + " true "
                    + hasLines);
        }
    }

    private static void annotations(String of, List<AnnotationNode> visible,
            List<AnnotationNode> invisible, List<String> lines) {
        for (AnnotationNode each : visible == null ? Collections.<AnnotationNode>emptyList()
                : visible) {
            lines.add(of + " true" + node(each));
        }
        for (AnnotationNode each : invisible == null ? Collections.<AnnotationNode>emptyList()
                : invisible) {
            lines.add(of + " false" + node(each));
        }
    }

    private static String node(Object value) {
        if (value instanceof AnnotationNode) {
            AnnotationNode annotation = (AnnotationNode) value;
            List<String> values = new ArrayList<>();
            for (int at = 0; annotation.values != null && at < annotation.values.size(); at += 2) {
                values.add(annotation.values.get(at) + "=" + node(annotation.values.get(at + 1)));
            }
            return "@" + annotation.desc + values;
        }
        if (value instanceof String[]) {
            return "enum " + ((String[]) value)[0] + " " + ((String[]) value)[1];
        }
        if (value instanceof Type) {
            return "class " + ((Type) value).getDescriptor();
        }
        return plain(value, Beside::node);
    }

    private static String constant(ClassReader reader, byte[] file, int index) throws IOException {
        int at = reader.getItem(index);
        int tag = file[at - 1];
        char[] room = new char[reader.getMaxStringLength()];
        String line = index + " " + tag + " ";
        switch (tag) {
            case 1:
                return line + new DataInputStream(
                        new ByteArrayInputStream(file, at, file.length - at)).readUTF();
            case 3:
                return line + reader.readInt(at) + " " + (reader.readInt(at) & 0xffffffffL);
            case 4:
                return line + Float.intBitsToFloat(reader.readInt(at)) + " "
                        + (reader.readInt(at) & 0xffffffffL);
            case 5:
                return line + reader.readLong(at) + " " + reader.readLong(at);
            case 6:
                return line + Double.longBitsToDouble(reader.readLong(at)) + " "
                        + reader.readLong(at);
            case 7:
            case 8:
            case 16:
                return line + reader.readUTF8(at, room);
            case 12:
                return line + reader.readUTF8(at, room) + " " + reader.readUTF8(at + 2, room);
            case 15:
                return line + file[at] + " " + reader.readUnsignedShort(at + 1);
            default:
                int both = reader.getItem(reader.readUnsignedShort(at + 2));
                return line + (tag == 18 ? reader.readUnsignedShort(at)
                        : reader.readClass(at, room)) + " " + reader.readUTF8(both, room) + " "
                        + reader.readUTF8(both + 2, room);
        }
    }

    // ---- both

    private static void compare(String name, byte[] file, ClassRecord record) throws IOException {
        List<String> wanted = lines(file);
        List<String> got = lines(record);
        for (int at = 0; at < Math.min(wanted.size(), got.size()); at++) {
            if (!wanted.get(at).equals(got.get(at))) {
                System.out.println(name + ": " + got.get(at) + ", by ASM " + wanted.get(at));
                break;
            }
        }
        CHECKS.that(name + ", " + got.size() + " lines", wanted.equals(got));
        CHECKS.that(name + " is spelled", Arrays.equals(file, record.classFile()));
    }

    public static void main(String[] words) throws Exception {
        List<String> paths = Arrays.asList(words).subList(1, words.length);
        Map<String, byte[]> classes = Classes.in(paths);
        List<String> refused = new ArrayList<>();
        try (ClassCache cache = ClassCache.open(Paths.get(words[0]), ClassCache.Options.create())) {
            cache.addLoader("app");
            Pending last = null;
            for (byte[] file : classes.values()) {
                try {
                    last = cache.submitDefine("app", file);
                } catch (CacheException.BadClass e) {
                    refused.add(e.getMessage());
                }
            }
            last.await();
        }
        try (ClassCache cache = ClassCache.open(Paths.get(words[0]))) {
            int found = 0;
            for (Map.Entry<String, byte[]> each : classes.entrySet()) {
                ClassRecord record = cache.find("app", each.getKey()).orElse(null);
                if (record != null) {
                    found++;
                    compare(each.getKey(), each.getValue(), record);
                }
            }
            System.out.println(found + " classes beside ASM, refused: " + refused);
            CHECKS.equal("all but the refused ones are there", classes.size() - refused.size(),
                    found);
            CHECKS.that("there are classes", found > 0);
        }
        CHECKS.finish();
    }
}
