import java.io.BufferedReader;
import java.io.ByteArrayInputStream;
import java.io.ByteArrayOutputStream;
import java.io.DataInputStream;
import java.io.DataOutputStream;
import java.io.FileDescriptor;
import java.io.FileOutputStream;
import java.io.IOException;
import java.io.InputStreamReader;
import java.io.PrintStream;
import java.io.UncheckedIOException;
import java.lang.invoke.CallSite;
import java.lang.invoke.ConstantCallSite;
import java.lang.invoke.MethodHandle;
import java.lang.invoke.MethodHandles;
import java.lang.invoke.MethodType;
import java.lang.invoke.StringConcatException;
import java.lang.invoke.StringConcatFactory;
import java.lang.invoke.WrongMethodTypeException;
import java.lang.reflect.Array;
import java.lang.reflect.Modifier;
import java.nio.ByteBuffer;
import java.nio.charset.StandardCharsets;
import java.nio.file.Files;
import java.nio.file.Path;
import java.util.ArrayList;
import java.util.Arrays;
import java.util.Collections;
import java.util.HashMap;
import java.util.IdentityHashMap;
import java.util.List;
import java.util.Map;
import java.util.Set;
import java.util.TreeMap;
import java.util.function.UnaryOperator;
import java.util.regex.MatchResult;
import java.util.regex.Matcher;
import java.util.regex.Pattern;
import java.util.stream.Collectors;
import java.util.stream.Stream;

/**
 * Runs inputs of mh on the Java virtual machine that runs this file, by java.lang.invoke and by
 * invokedynamic instructions of classes that it makes. tools/against-java starts it and compares.
 *
 * <p>The first line that is printed is the machine's version. Each line of standard input names the
 * files of one run with tabs between them: manifest, scripts, plan, then class files. They are inputs
 * that mh accepts (docs/FORMATS.md). What is printed for each is the report of mh, and a line `end`.
 * It differs from mh's report so:
 * <ul>
 * <li>`jvm:TEXT` stands in the place of a message `s:TEXT` that the machine chose;
 * <li>`or LINE` after the line of a call is what it gives where the arguments of each asType are
 *     converted from left to right, if that is something else;
 * <li>`own RULE COUNT` at the end says how often a rule that is mh's alone was applied (`Own`);
 * <li>`forms` and `types` are not counted;
 * <li>`stopped TEXT` is the whole report of a run that the machine cannot make.
 * </ul>
 */
public final class AgainstJava {
    /** The run whose leaves and call sites are called: made classes know only this class. */
    private static Run current;

    private AgainstJava() {}

    /** Answers each line of standard input with a report. With the word `plain` no rule of mh's own is applied. */
    public static void main(String[] words) throws IOException {
        boolean isPlain = List.of(words).contains("plain");
        var lines = new BufferedReader(new InputStreamReader(System.in, StandardCharsets.UTF_8));
        var out = new PrintStream(new FileOutputStream(FileDescriptor.out), false, StandardCharsets.UTF_8);
        out.print(System.getProperty("java.vm.name") + " " + Runtime.version() + "\n");
        out.flush();
        for (String line; (line = lines.readLine()) != null; ) {
            out.print(reportOf(List.of(line.split("\t")), isPlain));
            out.print("end\n");
            out.flush();
        }
    }

    private static String reportOf(List<String> files, boolean isPlain) {
        try {
            current = new Run(files, isPlain);
            return current.report();
        } catch (Exception | Error thrown) {
            return "stopped " + String.valueOf(thrown).lines().findFirst().orElse("") + "\n";
        }
    }

    /** What the body of each leaf's method calls: the leaf's number and its arguments, boxed. */
    public static Object leafCalled(int number, Object[] arguments) throws Throwable {
        return current.leafCalled(number, arguments);
    }

    /** The bootstrap method of all call sites. The first static argument is the site's number. */
    public static CallSite link(MethodHandles.Lookup caller, String name, MethodType type, Object... arguments)
            throws Throwable {
        Object[] rest = Arrays.copyOfRange(arguments, 1, arguments.length);
        return current.link((int) arguments[0], new Request(caller, name, type, rest));
    }

    /** The bootstrap method of all dynamic constants. The first static argument is what `begin` gives. */
    public static Object give(MethodHandles.Lookup caller, String name, Class<?> type, Object... arguments)
            throws Throwable {
        Object[] rest = Arrays.copyOfRange(arguments, 1, arguments.length);
        return current.give((int) arguments[0], type, rest);
    }

    /** Begins an attempt at a constant, before its other static arguments are resolved; the number of the constant. */
    public static Object begin(MethodHandles.Lookup caller, String name, Class<?> type, int number) {
        return current.begin(number);
    }

    /** Throws in the place of a static argument that mh refuses. */
    public static Object refuse(MethodHandles.Lookup caller, String name, Class<?> type, int number) throws Throwable {
        throw current.refused(number);
    }
}

/** What is mh's own, and is applied here in the place of what the machine does (docs/DIFFERENCES.md). */
enum Own {
    /** A tree of more than 256 nodes is refused. */
    WEIGHT,
    /** A handle type of 255 slots is refused. */
    SLOTS,
    /** An array as an item of an array is refused. */
    NESTED,
    /** A class that is no Throwable is refused by IllegalArgumentException. */
    THROWABLE,
    /** Of the conversions and the slots of a spread the conversions are looked at first. */
    SPREAD,
    /** An array type that an identity handle does not take is refused by gather. */
    COLLECTOR,
    /** An explicit conversion of types that cannot meet is refused. */
    EXPLICIT,
    /** A cleanup that does not take any Throwable first, or not the result after it, is refused by IllegalArgumentException. */
    CLEANUP,
    /** A loop of more than 64 turns throws. */
    TURNS,
    /** Types that mh lacks are refused. */
    TYPES,
    /** Static arguments, names of sites and kinds of bootstrap methods that mh lacks are refused. */
    CONSTANTS,
    /** A leaf of the other kind, static or virtual, is no such method. */
    KIND,
    /** An error that is no LinkageError is recorded too. */
    RECORDED,
    /** A recorded error is thrown again with its cause. */
    AGAIN,
    /** A recorded error is thrown again also if its class is one that the machine did not bring. */
    LOST,
    /** Exceptions of a target of 254 slots are caught. */
    WIDE,
    /** A dynamic constant that is too deep or reaches itself is refused before its static arguments. */
    DEPTH,
    /** A script that makes a method handle gives no value of a dynamic constant. */
    HANDLES,
    /** The error of a dynamic constant has its cause at each call site that asks for the constant. */
    ASKED,
    /** A dynamic constant that is null is a constant of a concatenation. */
    NULLS,
    /** A class, a type or a handle among the constants of a concatenation is refused. */
    CLASSES,
    /** An object, an array or an exception has a text of mh's own in a concatenation. */
    TEXTS,
    /** A char that is a half of a surrogate pair is U+FFFD in a concatenation. */
    HALVES,
    /** A concatenation gives no text that is too long. */
    LONG
}

/** What a bootstrap method is called with: its static arguments are without the site's number. */
record Request(MethodHandles.Lookup caller, String name, MethodType type, Object[] arguments) {}

/** One run: its inputs, what its call sites were linked to, and its report. */
final class Run {
    /** Whether the rules of mh's own are applied, but for types of 255 slots, which no call has. */
    final boolean isOwn;
    final Classes classes;
    final Exceptions exceptions;
    final Literals literals;
    final Map<String, Leaf> leaves;
    final Map<String, List<List<String>>> scripts;
    private final List<Leaf> numbered;
    private final List<Site> sites = new ArrayList<>();
    private final List<DynamicConstant> constants = new ArrayList<>();
    private final List<List<Call>> threads;
    /** What is thrown in the place of static arguments that mh refuses, by their numbers. */
    private final List<Fault> refused = new ArrayList<>();
    private final Map<Own, Integer> applied = new TreeMap<>();
    private final List<Integer> called = new ArrayList<>();
    private long attempts;
    private long constantAttempts;

    Run(List<String> files, boolean isPlain) throws IOException {
        isOwn = !isPlain;
        var manifest = new Manifest(Lines.read(files.get(0)), isPlain);
        numbered = manifest.leaves;
        leaves = numbered.stream().collect(Collectors.toMap(Leaf::reference, leaf -> leaf));
        scripts = scriptsOf(Lines.read(files.get(1)));
        classes = new Classes(manifest);
        exceptions = new Exceptions(classes);
        literals = new Literals(classes, exceptions);
        read(files.subList(3, files.size()));
        threads = threadsOf(Lines.read(files.get(2)));
    }

    private static Map<String, List<List<String>>> scriptsOf(List<List<String>> lines) {
        Map<String, List<List<String>>> scripts = new HashMap<>();
        List<List<String>> script = null;
        for (List<String> line : lines) {
            if (line.get(0).equals("script")) {
                script = new ArrayList<>();
                scripts.put(Names.reference(line.get(1), line.get(2), line.get(3)), script);
            } else if (!line.get(0).equals("end")) {
                script.add(line);
            }
        }
        return scripts;
    }

    /** Reads class files; call sites and dynamic constants are numbered over all of them. */
    private void read(List<String> files) throws IOException {
        for (String file : files) {
            var read = new ClassFile(Files.readAllBytes(Path.of(file)), constants.size());
            var members = new Members(new ArrayList<>(), new ArrayList<>());
            for (SiteView view : read.sites()) {
                members.sites().add(new Site(sites.size() + members.sites().size(), view, members));
            }
            for (ConstantView view : read.constants()) {
                members.constants().add(new DynamicConstant(view, members));
            }
            sites.addAll(members.sites());
            constants.addAll(members.constants());
        }
        var depths = new Depths(constants);
        var resolution = new Resolution(this);
        constants.forEach(constant -> constant.fault = resolution.faultOf(constant.view, depths.isTooDeep(constant)));
    }

    private static List<List<Call>> threadsOf(List<List<String>> lines) {
        List<List<Call>> threads = new ArrayList<>();
        for (List<String> line : lines) {
            if (line.get(0).equals("thread")) {
                threads.add(new ArrayList<>());
            } else {
                threads.get(threads.size() - 1).add(Call.of(line));
            }
        }
        return threads;
    }

    /** Carries out the plan; the text that mh prints. */
    String report() {
        var calls = new StringBuilder();
        for (int thread = 0; thread < threads.size(); thread++) {
            calls.append("thread ").append(thread).append('\n');
            threads.get(thread).forEach(call -> calls.append(linesOf(call)));
        }
        var report = new StringBuilder();
        sites.forEach(site -> report.append(site.line(this)));
        constants.forEach(constant -> report.append(constant.line(this)));
        report.append(calls).append("attempts ").append(attempts).append(" forms - types -\n");
        applied.forEach((rule, count) -> report.append("own " + rule.name().toLowerCase() + " " + count + "\n"));
        return report.toString();
    }

    private String linesOf(Call call) {
        Object[] arguments = call.arguments().stream().map(literals::read).toArray();
        return switch (call.way()) {
            case SITE -> linesOfSite(sites.get(call.site()), arguments);
            case EXACT -> lineOfExact(call, arguments);
            case GENERIC -> linesOfGeneric(call, arguments);
        };
    }

    private String linesOfSite(Site site, Object[] arguments) {
        Class<?> returned = classes.returned(site.view.descriptor());
        String line = lineOf(() -> callSite(site, arguments), returned);
        if (site.inOrder == null || !site.isLinked()) {
            return line;
        }
        Caller caller = classes.caller(site.view.descriptor());
        return withOther(line, lineOf(() -> caller.exact(site.inOrder, arguments), returned));
    }

    private String lineOfExact(Call call, Object[] arguments) {
        MethodHandle leaf = classes.handleOf(leaves.get(call.leaf()));
        MethodType type = classes.methodType(call.type());
        if (Descriptors.isTooWide(type)) {
            return lineOf(() -> { throw own(Own.SLOTS, exceptions.wrongType(leaf.type(), type)); }, void.class);
        }
        return lineOf(() -> classes.caller(call.type()).exact(leaf, arguments), type.returnType());
    }

    private String linesOfGeneric(Call call, Object[] arguments) {
        MethodHandle leaf = classes.handleOf(leaves.get(call.leaf()));
        MethodType type = classes.methodType(call.type());
        if (Descriptors.isTooWide(type)) {
            return lineOf(() -> converted(leaf, type), void.class);
        }
        Caller caller = classes.caller(call.type());
        String line = lineOf(() -> caller.generic(leaf, arguments), type.returnType());
        if (!Conversions.orderMatters(leaf.type(), type)) {
            return line;
        }
        Computation other = () -> caller.exact(Conversions.inOrder(leaf, type), arguments);
        return withOther(line, lineOf(other, type.returnType()));
    }

    /** A handle as a type, with what mh refuses. */
    MethodHandle converted(MethodHandle handle, MethodType type) throws Throwable {
        MethodHandle converted = handle.asType(type);
        limit("astype", type);
        return converted;
    }

    /** Throws where a handle type is over the limit of mh. */
    void limit(String word, MethodType type) throws Throwable {
        if (Descriptors.isTooWide(type)) {
            throw own(Own.SLOTS, exceptions.make(IllegalArgumentException.class, word));
        }
    }

    /** An exception that is thrown by a rule of mh's own, which is counted. */
    Throwable own(Own rule, Throwable thrown) {
        count(rule);
        return thrown;
    }

    /** Counts that a rule of mh's own is applied. */
    void count(Own rule) {
        applied.merge(rule, 1, Integer::sum);
    }

    private static String withOther(String line, String other) {
        return line.equals(other) ? line : line + "or " + other;
    }

    /** What gives a value or throws. */
    interface Computation {
        Object run() throws Throwable;
    }

    private String lineOf(Computation computation, Class<?> returned) {
        called.clear();
        String result;
        try {
            result = "returns " + literals.show(computation.run(), returned);
        } catch (Throwable thrown) {
            result = "throws " + exceptions.show(thrown);
        }
        String numbers = called.stream().map(String::valueOf).collect(Collectors.joining(" "));
        return result + " calls " + (numbers.isEmpty() ? "-" : numbers) + "\n";
    }

    Object leafCalled(int number, Object[] arguments) throws Throwable {
        int before = called.size();
        called.add(number);
        return numbered.get(number).run(arguments, before, exceptions);
    }

    private Object callSite(Site site, Object[] arguments) throws Throwable {
        if (site.serial == 0) {
            site.serial = ++attempts;
            resolve(site);
        }
        if (site.caller == null) {
            throw site.error;
        }
        try {
            return site.caller.site(classes.filled(site.view.descriptor(), arguments));
        } catch (Throwable thrown) {
            throw site.isLinked() ? thrown : failed(site, thrown);
        } finally {
            settleAll(site, null);
        }
    }

    private void resolve(Site site) {
        Fault fault = new Resolution(this).firstFault(site.view);
        if (fault == null || fault.isForMachine() || !isOwn) {
            site.caller = classes.siteCaller(site, this);
        } else {
            site.error = exceptions.recorded(own(fault.rule(), fault.thrown()));
        }
    }

    /** What the machine threw in the place of linking a site: the first time, and then each time. */
    private Throwable failed(Site site, Throwable thrown) {
        if (site.error != null) {
            return isOwn ? again(Own.AGAIN, site.error, thrown) : thrown;
        }
        DynamicConstant failing = settleAll(site, thrown);
        site.error = failing == null || !isOwn ? thrown : again(Own.ASKED, failing.error, thrown);
        return site.error;
    }

    /** The first error that was thrown, where the machine left its cause out or cannot find a class. */
    private Throwable again(Own rule, Throwable first, Throwable thrown) {
        if (isLost(first, thrown)) {
            return own(Own.LOST, first);
        }
        Throwable cause = first.getCause();
        boolean isAnew = thrown.getClass() == first.getClass() && cause != null
                && (thrown.getCause() == null || isLost(cause, thrown.getCause()));
        return isAnew ? own(rule, first) : thrown;
    }

    /** Whether the machine threw that it cannot find the class of what was thrown first. */
    private static boolean isLost(Throwable first, Throwable thrown) {
        return thrown instanceof NoClassDefFoundError
                && Classes.internal(first.getClass()).equals(thrown.getMessage());
    }

    // Dynamic constants.

    /** Begins an attempt at a constant, which has the next serial. */
    int begin(int number) {
        DynamicConstant constant = constants.get(number);
        constant.serial = constant.serial == 0 ? ++constantAttempts : constant.serial;
        return number;
    }

    /** The value that the script of a constant gives; the machine makes it a value of the constant's type. */
    Object give(int number, Class<?> type, Object[] arguments) throws Throwable {
        DynamicConstant constant = constants.get(number);
        if (constant.thrown != null && isOwn) {
            throw own(Own.RECORDED, constant.thrown);
        }
        try {
            if (constant.isRefused(this)) {
                throw own(constant.fault.rule(), constant.fault.thrown());
            }
            List<List<String>> script = scripts.get(constant.view.bootstrap().reference());
            return new Attempt(this, constant.serial, constant.view.name(), type, arguments, false).valueOf(script);
        } catch (Throwable thrown) {
            constant.thrown = thrown;
            throw thrown;
        }
    }

    /** Notes that a static argument is refused; a number for it. */
    int refuse(Fault fault) {
        refused.add(fault);
        return refused.size() - 1;
    }

    Throwable refused(int number) {
        return own(refused.get(number).rule(), refused.get(number).thrown());
    }

    DynamicConstant constant(Object argument) {
        return argument instanceof ConstantNamed named ? constants.get(named.number()) : null;
    }

    /** Settles the constants that a site asks for; none where it has a fault before its static arguments. */
    private DynamicConstant settleAll(Site site, Throwable thrown) {
        boolean asksNone = ends(new Resolution(this).faultBeforeArguments(site.view));
        return asksNone ? null : settleAll(site.view.arguments(), thrown);
    }

    /** Settles the constants among static arguments up to the first that is an error, which is the answer. */
    private DynamicConstant settleAll(List<Object> arguments, Throwable thrown) {
        for (Object argument : arguments) {
            DynamicConstant constant = constant(argument);
            if (constant == null && ends(new Resolution(this).faultOfArgument(argument))) {
                return null;
            }
            if (constant != null && !isValue(constant, thrown)) {
                return constant;
            }
        }
        return null;
    }

    /** Whether there is a fault here, so that what comes after it is not resolved. */
    private boolean ends(Fault fault) {
        return fault != null && (isOwn || fault.isForMachine());
    }

    /** Whether the machine has a value of a constant that a site has asked for, which threw this, or null. */
    private boolean isValue(DynamicConstant constant, Throwable thrown) {
        if (!constant.isSettled) {
            constant.isSettled = true;
            // (where the machine finds no bootstrap method, or not the type, nothing has begun the attempt)
            begin(constant.view.number());
            List<Object> arguments = ends(constant.fault) ? List.of() : constant.view.arguments();
            DynamicConstant failing = settleAll(arguments, thrown);
            try {
                constant.value = classes.constantCaller(constant, this).constant();
            } catch (Throwable found) {
                Throwable first = thrown == null ? found : thrown;
                // (an argument that was an error before this site asked for it may have been thrown anew)
                constant.error = failing == null || !isOwn ? first : failing.error;
            }
        }
        return constant.error == null;
    }

    /** Links a site: runs its script, or calls the bootstrap method of concatenations. */
    CallSite link(int number, Request request) throws Throwable {
        Site site = sites.get(number);
        if (site.thrown != null && isOwn) {
            throw own(Own.RECORDED, site.thrown);
        }
        site.serial = site.thrown == null ? site.serial : ++attempts;
        try {
            if (Concatenation.isLinkedBy(site.view.bootstrap())) {
                site.target = new Concatenation(this).target(request);
            } else {
                runScript(site, request);
            }
            site.isOfType = site.target.type().equals(request.type());
            return new ConstantCallSite(site.target);
        } catch (Throwable thrown) {
            site.thrown = thrown;
            throw thrown;
        }
    }

    private void runScript(Site site, Request request) throws Throwable {
        List<List<String>> script = scripts.get(site.view.bootstrap().reference());
        var attempt = attempt(site, request, false);
        site.target = attempt.targetOf(script);
        if (attempt.orderMatters) {
            site.inOrder = attempt(site, request, true).targetOf(script);
        }
    }

    private Attempt attempt(Site site, Request request, boolean isInOrder) {
        return new Attempt(this, site.serial, site.view.name(), request.type(), request.arguments(), isInOrder);
    }
}

/** What a class file has of a run. */
record Members(List<Site> sites, List<DynamicConstant> constants) {}

/** A call site of a run, and what became of it. */
final class Site {
    final int number;
    final SiteView view;
    /** What its class file has. */
    final Members file;
    /** The number of its attempt; 0 before. */
    long serial;
    /** What executes an invokedynamic instruction that names what the site names; null where mh refuses the site. */
    Caller caller;
    MethodHandle target;
    boolean isOfType;
    /** The target with the arguments of each asType converted from left to right, where that may be something else. */
    MethodHandle inOrder;
    /** What the script threw. */
    Throwable thrown;
    /** What the first call threw because the site was not linked. */
    Throwable error;

    Site(int number, SiteView view, Members file) {
        this.number = number;
        this.view = view;
        this.file = file;
    }

    boolean isLinked() {
        return target != null && isOfType;
    }

    String line(Run run) {
        if (serial == 0) {
            return "site " + number + " none\n";
        }
        String what = isLinked() ? "linked " + run.classes.show(target.type()) : "error " + run.exceptions.show(error);
        return "site " + number + " serial " + serial + " " + what + "\n";
    }
}

/** A dynamic constant of a run, and what became of it. */
final class DynamicConstant {
    final ConstantView view;
    /** What its class file has. */
    final Members file;
    /** What is wrong before its static arguments are resolved; null where nothing is. */
    Fault fault;
    /** The number of its attempt; 0 before. */
    long serial;
    /** What its script threw. */
    Throwable thrown;
    /** Whether the machine was asked for what is recorded of it. */
    boolean isSettled;
    Object value;
    /** What a call site threw that asked for it; null where it has a value. */
    Throwable error;

    DynamicConstant(ConstantView view, Members file) {
        this.view = view;
        this.file = file;
    }

    /** Whether a rule of mh's own refuses it before its static arguments are resolved. */
    boolean isRefused(Run run) {
        return run.isOwn && fault != null && !fault.isForMachine();
    }

    String line(Run run) {
        if (serial == 0) {
            return "constant " + view.number() + " none\n";
        }
        String what = error == null
                ? "value " + run.literals.show(value, Object.class)
                : "error " + run.exceptions.show(error);
        return "constant " + view.number() + " serial " + serial + " " + what + "\n";
    }
}

/** How deep dynamic constants stand over those among their static arguments. */
final class Depths {
    private static final int MOST = 64;

    /** The depth of each constant; 0 where it has none. */
    private int[] depths;

    Depths(List<DynamicConstant> constants) {
        depths = new int[constants.size()];
        for (int round = 0; round < MOST; round++) {
            depths = constants.stream().mapToInt(this::next).toArray();
        }
    }

    boolean isTooDeep(DynamicConstant constant) {
        return depths[constant.view.number()] == 0;
    }

    private int next(DynamicConstant constant) {
        int most = 0;
        for (Object argument : constant.view.arguments()) {
            if (argument instanceof ConstantNamed named) {
                int depth = depths[named.number()];
                if (depth == 0) {
                    return 0;
                }
                most = Math.max(most, depth);
            }
        }
        return most + 1;
    }
}

/**
 * What is wrong with what a site or a constant names: a rule of mh's own, or null where it is not
 * there and the machine says so.
 */
record Fault(Own rule, Throwable thrown) {
    boolean isForMachine() {
        return rule == null;
    }
}

/** Looks up what sites and scripts name, in the order of mh. */
final class Resolution {
    private final Run run;

    Resolution(Run run) {
        this.run = run;
    }

    /** The first fault of a site that does not depend on dynamic constants; null where it has none. */
    Fault firstFault(SiteView site) {
        Stream<Object> known = site.arguments().stream().takeWhile(argument -> !(argument instanceof ConstantNamed));
        return first(Stream.concat(Stream.of(site).map(this::faultBeforeArguments), known.map(this::faultOfArgument)));
    }

    /** The first fault of a site before its static arguments; null where it has none. */
    Fault faultBeforeArguments(SiteView site) {
        boolean isBuiltIn = Concatenation.isLinkedBy(site.bootstrap());
        Fault ofBootstrap = faultOfBootstrap(site.bootstrap(), isBuiltIn);
        return first(Stream.of(ofBootstrap, faultOfTypes(site.descriptor()), faultOfText(site.name())));
    }

    private static Fault first(Stream<Fault> faults) {
        return faults.filter(fault -> fault != null).findFirst().orElse(null);
    }

    /** The first fault of a dynamic constant before its static arguments; null where it has none. */
    Fault faultOf(ConstantView constant, boolean isTooDeep) {
        if (isTooDeep) {
            return new Fault(Own.DEPTH, run.exceptions.make(StackOverflowError.class, "constant depth"));
        }
        boolean isType = Descriptors.isType(constant.descriptor());
        Fault ofType = isType ? faultOfTypes(constant.descriptor()) : unsupported(Own.TYPES, "type");
        return first(Stream.of(faultOfBootstrap(constant.bootstrap(), false), ofType, faultOfText(constant.name())));
    }

    private Fault faultOfBootstrap(HandleTo bootstrap, boolean isBuiltIn) {
        if (bootstrap.kind() != HandleTo.STATIC) {
            return unsupported(Own.CONSTANTS, "constant");
        }
        return isBuiltIn || run.scripts.containsKey(bootstrap.reference()) ? null : new Fault(null, null);
    }

    /** What is wrong with a static argument that is no dynamic constant; null where nothing is. */
    Fault faultOfArgument(Object constant) {
        if (constant instanceof String text) {
            return faultOfText(text);
        } else if (constant instanceof TypeNamed type) {
            return faultOfTypes(type.descriptor());
        } else if (constant instanceof ClassNamed named) {
            return faultOfClass(named.text());
        } else if (constant instanceof HandleTo handle) {
            return faultOfHandle(handle);
        }
        boolean isLeftOut = constant instanceof Float || constant instanceof Double;
        return isLeftOut ? unsupported(Own.CONSTANTS, "constant") : null;
    }

    private Fault faultOfText(String text) {
        boolean isLone = text.codePoints().anyMatch(c -> Character.MIN_SURROGATE <= c && c <= Character.MAX_SURROGATE);
        if (isLone) {
            return unsupported(Own.CONSTANTS, "lone surrogate");
        }
        return Texts.isTooLong(text) ? unsupported(Own.CONSTANTS, "string too long") : null;
    }

    private Fault faultOfClass(String text) {
        if (!text.startsWith("[")) {
            return run.classes.find(text) == null ? new Fault(null, null) : null;
        }
        return Descriptors.isArray(text) ? faultOfTypes(text) : new Fault(null, null);
    }

    private Fault faultOfHandle(HandleTo handle) {
        if (handle.kind() != HandleTo.STATIC && handle.kind() != HandleTo.VIRTUAL) {
            return unsupported(Own.CONSTANTS, "constant");
        }
        Leaf leaf = run.leaves.get(handle.reference());
        if (leaf == null) {
            return new Fault(null, null);
        }
        Throwable otherKind = run.exceptions.make(NoSuchMethodError.class, handle.reference());
        return leaf.isStatic() == (handle.kind() == HandleTo.STATIC) ? null : new Fault(Own.KIND, otherKind);
    }

    /** The first type in a text that mh lacks or whose class is not there. */
    Fault faultOfTypes(String descriptor) {
        for (String type : Descriptors.typesOf(descriptor)) {
            if (Descriptors.isLeftOut(type)) {
                return unsupported(Own.TYPES, "type");
            }
            String name = Descriptors.className(type);
            if (name != null && run.classes.find(name) == null) {
                return new Fault(null, run.exceptions.make(NoClassDefFoundError.class, name));
            }
        }
        return null;
    }

    private Fault unsupported(Own rule, String word) {
        return new Fault(rule, run.exceptions.make(UnsupportedOperationException.class, word));
    }

    /** The leaf of a reference in a script. */
    Leaf leaf(String reference) throws Throwable {
        Leaf leaf = run.leaves.get(reference);
        if (leaf == null) {
            classNamed(Names.ownerOf(reference));
            throw run.exceptions.make(NoSuchMethodError.class, reference);
        }
        return leaf;
    }

    /** The class of a name in a script. */
    Class<?> classNamed(String name) throws Throwable {
        Class<?> found = run.classes.find(name);
        if (found == null) {
            throw run.exceptions.make(NoClassDefFoundError.class, name);
        }
        return found;
    }

    /** Throws what is wrong with the types of a descriptor in a script. */
    void types(String descriptor) throws Throwable {
        Fault fault = faultOfTypes(descriptor);
        if (fault != null && fault.isForMachine()) {
            throw fault.thrown();
        } else if (fault != null && run.isOwn) {
            throw run.own(fault.rule(), fault.thrown());
        }
    }
}

/** A method handle, and how many nodes its combinator tree has. */
record Tree(MethodHandle handle, int weight) {
    MethodType type() {
        return handle.type();
    }
}

/** One run of a script, line by line. */
final class Attempt {
    private static final int MOST_NODES = 256;
    private static final int MOST_TURNS = 64;
    /** The node of a loop counts for the turns that it may have. */
    private static final int LOOP_NODES = 126;
    private static final Pattern REGISTER = Pattern.compile("[a-z][a-z0-9_]{0,15}");
    private static final Pattern ARGUMENT = Pattern.compile("a(0|[1-9][0-9]*)");

    /** Whether an asType converts two arguments that may both fail. */
    boolean orderMatters;

    private final Run run;
    private final Resolution resolution;
    private final Map<String, Object> held = new HashMap<>();
    private final Object[] arguments;
    private final long serial;
    private final boolean isInOrder;

    Attempt(Run run, long serial, String name, Object type, Object[] arguments, boolean isInOrder) {
        this.run = run;
        this.resolution = new Resolution(run);
        this.arguments = arguments;
        this.serial = serial;
        this.isInOrder = isInOrder;
        held.put("type", type);
        held.put("name", name);
    }

    /** The handle that a script returns. */
    MethodHandle targetOf(List<List<String>> script) throws Throwable {
        runLines(script);
        List<String> end = script.get(script.size() - 1);
        if (end.get(0).equals("value")) {
            throw run.exceptions.make(ClassCastException.class, "value");
        }
        return handle(end.get(1)).handle();
    }

    /** The value that a script gives. */
    Object valueOf(List<List<String>> script) throws Throwable {
        if (run.isOwn && script.stream().anyMatch(Attempt::makesHandle)) {
            throw run.own(Own.HANDLES, run.exceptions.make(UnsupportedOperationException.class, "handle"));
        }
        runLines(script);
        List<String> end = script.get(script.size() - 1);
        return end.get(0).equals("value") ? value(end.get(1)) : handle(end.get(1)).handle();
    }

    private static boolean makesHandle(List<String> line) {
        return line.get(0).equals("return") || line.get(0).equals("let") && !line.get(2).equals("serial");
    }

    /** The lines of a script before its end, and its end if that throws. */
    private void runLines(List<List<String>> script) throws Throwable {
        for (List<String> line : script) {
            switch (line.get(0)) {
                case "let" -> held.put(line.get(1), assigned(line.subList(2, line.size())));
                case "failmod" -> failIf(serial % Long.parseLong(line.get(1)) == Long.parseLong(line.get(2)));
                case "raise" -> throw raised(line.get(1), line.get(2));
                default -> { }
            }
        }
    }

    private void failIf(boolean fails) throws Throwable {
        if (fails) {
            throw run.exceptions.make(RuntimeException.class, "failmod");
        }
    }

    private Throwable raised(String name, String message) throws Throwable {
        Class<?> type = resolution.classNamed(name);
        return Throwable.class.isAssignableFrom(type)
                ? run.exceptions.make(type, (String) run.literals.read(message))
                : run.exceptions.make(IllegalArgumentException.class, "raise");
    }

    private Object assigned(List<String> words) throws Throwable {
        if (words.get(0).equals("serial")) {
            return serial;
        }
        if (words.get(0).equals("switch")) {
            return switching(handles(words.subList(1, words.size())));
        }
        return words.size() < 4 ? ofTwo(words) : ofThree(words);
    }

    /** A line of at most two operands. */
    private Tree ofTwo(List<String> words) throws Throwable {
        String first = words.get(1);
        String second = words.get(words.size() - 1);
        return switch (words.get(0)) {
            case "leaf" -> new Tree(run.classes.handleOf(resolution.leaf(first)), 1);
            case "constant" -> made("constant", MethodHandles.constant(type(first), value(second)), 1);
            case "identity" -> made("identity", MethodHandles.identity(type(first)), 1);
            case "throw" -> throwing(type(first), resolution.classNamed(second));
            case "filterret" -> filterReturn(handle(first), handle(second));
            case "astype" -> asType(handle(first), methodType(second));
            case "explicit" -> explicit(handle(first), methodType(second));
            case "tryfinally" -> cleanedUp(handle(first), handle(second));
            default -> throw new IllegalStateException(words.toString());
        };
    }

    /** A line of three operands. */
    private Tree ofThree(List<String> words) throws Throwable {
        String first = words.get(1);
        String second = words.get(2);
        String third = words.get(3);
        return switch (words.get(0)) {
            case "bind" -> bind(handle(first), number(second), value(third));
            case "drop" -> drop(handle(first), number(second), types(third));
            case "permute" -> permute(handle(first), methodType(second), order(third));
            case "filter" -> filter(handle(first), number(second), handle(third));
            case "fold" -> fold(handle(first), number(second), handle(third));
            case "collect" -> collect(handle(first), number(second), handle(third));
            case "spread" -> spread(handle(first), type(second), number(third));
            case "gather" -> gather(handle(first), type(second), number(third));
            case "guard" -> guard(handle(first), handle(second), handle(third));
            case "catch" -> catching(handle(first), resolution.classNamed(second), handle(third));
            case "counted" -> counted(handle(first), handle(second), handle(third));
            default -> throw new IllegalStateException(words.toString());
        };
    }

    // Operands.

    private Object content(String register) throws Throwable {
        if (!ARGUMENT.matcher(register).matches()) {
            return held.get(register);
        }
        String number = register.substring(1);
        if (number.length() > 9 || Integer.parseInt(number) >= arguments.length) {
            throw run.exceptions.make(WrongMethodTypeException.class, "arguments");
        }
        return arguments[Integer.parseInt(number)];
    }

    private <T> T sorted(Class<T> sort, Object content) throws Throwable {
        if (!sort.isInstance(content)) {
            throw run.exceptions.make(ClassCastException.class, "arguments");
        }
        return sort.cast(content);
    }

    private Tree handle(String register) throws Throwable {
        Object content = content(register);
        return sorted(Tree.class, content instanceof MethodHandle handle ? new Tree(handle, 1) : content);
    }

    private List<Tree> handles(List<String> registers) throws Throwable {
        List<Tree> trees = new ArrayList<>();
        for (String register : registers) {
            trees.add(handle(register));
        }
        return trees;
    }

    private Object value(String token) throws Throwable {
        if (token.contains(":") || token.equals("null")) {
            return run.literals.read(token);
        }
        Object content = content(token);
        boolean isValue = content == null || content instanceof String || Primitive.wraps(content.getClass());
        return isValue ? content : sorted(Number.class, content);
    }

    private Class<?> type(String token) throws Throwable {
        if (token.equals("V")) {
            return void.class;
        }
        return REGISTER.matcher(token).matches() ? sorted(Class.class, content(token)) : types(token)[0];
    }

    private MethodType methodType(String token) throws Throwable {
        if (!token.startsWith("(")) {
            return sorted(MethodType.class, content(token));
        }
        resolution.types(token);
        return run.classes.methodType(token);
    }

    private Class<?>[] types(String token) throws Throwable {
        resolution.types(token);
        return Descriptors.typesOf(token).stream().map(run.classes::type).toArray(Class<?>[]::new);
    }

    private static int number(String token) {
        return Integer.parseInt(token);
    }

    private static int[] order(String token) {
        return token.equals("-") ? new int[0] : Arrays.stream(token.split(",")).mapToInt(Integer::parseInt).toArray();
    }

    // Combinators.

    private Tree made(String word, MethodHandle handle, int weight) throws Throwable {
        run.limit(word, handle.type());
        if (weight > MOST_NODES && run.isOwn) {
            throw run.own(Own.WEIGHT, run.exceptions.make(InternalError.class, "weight"));
        }
        return new Tree(handle, weight);
    }

    /** mh refuses a class that is no Throwable as it refuses other operands. */
    private Throwable noThrowable(String word, Class<?> type, ClassCastException thrown) {
        return Throwable.class.isAssignableFrom(type) || !run.isOwn
                ? thrown
                : run.own(Own.THROWABLE, run.exceptions.make(IllegalArgumentException.class, word));
    }

    @SuppressWarnings("unchecked")
    private Tree throwing(Class<?> returned, Class<?> type) throws Throwable {
        try {
            return made("throw", MethodHandles.throwException(returned, (Class<? extends Throwable>) type), 1);
        } catch (ClassCastException thrown) {
            throw noThrowable("throw", type, thrown);
        }
    }

    private Tree bind(Tree tree, int position, Object value) throws Throwable {
        return made("bind", MethodHandles.insertArguments(tree.handle(), position, value), tree.weight() + 1);
    }

    private Tree drop(Tree tree, int position, Class<?>[] types) throws Throwable {
        return made("drop", MethodHandles.dropArguments(tree.handle(), position, types), tree.weight() + 1);
    }

    private Tree permute(Tree tree, MethodType type, int[] order) throws Throwable {
        return made("permute", MethodHandles.permuteArguments(tree.handle(), type, order), tree.weight() + 1);
    }

    private Tree filter(Tree tree, int position, Tree filter) throws Throwable {
        MethodHandle handle = MethodHandles.filterArguments(tree.handle(), position, filter.handle());
        return made("filter", handle, 1 + tree.weight() + filter.weight());
    }

    private Tree filterReturn(Tree tree, Tree filter) throws Throwable {
        MethodHandle handle = MethodHandles.filterReturnValue(tree.handle(), filter.handle());
        return made("filterret", handle, 1 + tree.weight() + filter.weight());
    }

    private Tree fold(Tree tree, int position, Tree combiner) throws Throwable {
        MethodHandle handle = MethodHandles.foldArguments(tree.handle(), position, combiner.handle());
        return made("fold", handle, 1 + tree.weight() + combiner.weight());
    }

    private Tree collect(Tree tree, int position, Tree filter) throws Throwable {
        MethodHandle handle = MethodHandles.collectArguments(tree.handle(), position, filter.handle());
        return made("collect", handle, 1 + tree.weight() + filter.weight());
    }

    private Tree guard(Tree test, Tree target, Tree fallback) throws Throwable {
        MethodHandle handle = MethodHandles.guardWithTest(test.handle(), target.handle(), fallback.handle());
        return made("guard", handle, 1 + test.weight() + target.weight() + fallback.weight());
    }

    @SuppressWarnings("unchecked")
    private Tree catching(Tree target, Class<?> type, Tree handler) throws Throwable {
        int weight = 1 + target.weight() + handler.weight();
        try {
            MethodHandle handle = MethodHandles.catchException(
                    target.handle(), (Class<? extends Throwable>) type, handler.handle());
            return made("catch", handle, weight);
        } catch (ClassCastException thrown) {
            throw noThrowable("catch", type, thrown);
        } catch (IllegalArgumentException thrown) {
            if (!run.isOwn || !WideCatch.isRefused(target.type(), type, handler.type())) {
                throw thrown;
            }
            run.own(Own.WIDE, thrown);
            return made("catch", new WideCatch(target.handle(), type, handler.handle()).handle(), weight);
        }
    }

    private Tree cleanedUp(Tree target, Tree cleanup) throws Throwable {
        MethodHandle handle;
        try {
            handle = MethodHandles.tryFinally(target.handle(), cleanup.handle());
        } catch (IndexOutOfBoundsException thrown) {
            throw run.isOwn ? noCleanup() : thrown;
        }
        if (run.isOwn && cleanup.type().parameterType(0) != Throwable.class) {
            throw noCleanup();
        }
        return made("tryfinally", handle, 1 + target.weight() + cleanup.weight());
    }

    private Throwable noCleanup() throws Throwable {
        return run.own(Own.CLEANUP, run.exceptions.make(IllegalArgumentException.class, "tryfinally"));
    }

    /** A switch of the first handle, which is the fallback, and the others. */
    private Tree switching(List<Tree> trees) throws Throwable {
        MethodHandle[] cases = trees.stream().skip(1).map(Tree::handle).toArray(MethodHandle[]::new);
        MethodHandle handle = MethodHandles.tableSwitch(trees.get(0).handle(), cases);
        return made("switch", handle, 1 + trees.stream().mapToInt(Tree::weight).sum());
    }

    private Tree counted(Tree iterations, Tree init, Tree body) throws Throwable {
        MethodHandle turns = iterations.handle();
        if (run.isOwn && turns.type().returnType() == int.class) {
            MethodType type = MethodType.methodType(int.class, int.class);
            turns = MethodHandles.filterReturnValue(turns, MethodHandles.lookup().bind(this, "bounded", type));
        }
        MethodHandle handle = MethodHandles.countedLoop(turns, init.handle(), body.handle());
        return made("counted", handle, LOOP_NODES + iterations.weight() + init.weight() + body.weight());
    }

    /** The turns of a loop, unless there are too many. */
    private int bounded(int turns) throws Throwable {
        if (turns > MOST_TURNS) {
            throw run.own(Own.TURNS, run.exceptions.make(InternalError.class, "loop"));
        }
        return turns;
    }

    private Tree asType(Tree tree, MethodType type) throws Throwable {
        if (tree.type().equals(type)) {
            return tree;
        }
        MethodHandle converted = run.converted(tree.handle(), type);
        orderMatters |= Conversions.orderMatters(tree.type(), type);
        return made("astype", isInOrder ? Conversions.inOrder(tree.handle(), type) : converted, tree.weight() + 1);
    }

    private Tree explicit(Tree tree, MethodType type) throws Throwable {
        if (tree.type().equals(type)) {
            return tree;
        }
        MethodHandle converted = MethodHandles.explicitCastArguments(tree.handle(), type);
        if (run.isOwn && !Conversions.canMeet(tree.type(), type)) {
            throw run.own(Own.EXPLICIT, run.exceptions.wrongType(tree.type(), type));
        }
        orderMatters |= Conversions.orderMatters(tree.type(), type);
        MethodHandle made = isInOrder ? Conversions.explicitlyInOrder(tree.handle(), type) : converted;
        return made("explicit", made, tree.weight() + 1);
    }

    private Tree spread(Tree tree, Class<?> array, int count) throws Throwable {
        MethodHandle spread = spreader(tree.handle(), array, count);
        MethodType type = tree.type();
        int from = type.parameterCount() - count;
        for (int i = from; i < type.parameterCount(); i++) {
            type = type.changeParameterType(i, array.getComponentType());
        }
        Tree converted = asType(tree, type);
        return made("spread", isInOrder ? converted.handle().asSpreader(array, count) : spread, converted.weight() + 1);
    }

    private MethodHandle spreader(MethodHandle handle, Class<?> array, int count) throws Throwable {
        try {
            return handle.asSpreader(array, count);
        } catch (IllegalArgumentException thrown) {
            if (run.isOwn && array.isArray() && count <= handle.type().parameterCount()) {
                checkItems(handle.type(), array.getComponentType(), count);
            }
            throw thrown;
        }
    }

    /** Throws where items of a type cannot be converted to the last parameters. */
    private void checkItems(MethodType type, Class<?> component, int count) throws Throwable {
        try {
            for (Class<?> wanted : type.parameterList().subList(type.parameterCount() - count, type.parameterCount())) {
                MethodHandles.identity(wanted).asType(MethodType.methodType(wanted, component));
            }
        } catch (WrongMethodTypeException thrown) {
            throw run.own(Own.SPREAD, thrown);
        }
    }

    private Tree gather(Tree tree, Class<?> array, int count) throws Throwable {
        MethodHandle gathered = collector(tree.handle(), array, count);
        if (array == Object[].class && run.isOwn) {
            int last = tree.type().parameterCount() - 1;
            MethodHandle flat = flat().asType(MethodType.methodType(array, array));
            MethodHandle checked = MethodHandles.filterArguments(
                    tree.handle().asType(tree.type().changeParameterType(last, array)), last, flat);
            gathered = checked.asCollector(array, count);
        }
        return made("gather", gathered, tree.weight() + 1);
    }

    /** What asCollector gives; of an identity handle it does not look at the array type. */
    private MethodHandle collector(MethodHandle handle, Class<?> array, int count) throws Throwable {
        MethodType type = handle.type();
        boolean hasLast = type.parameterCount() > 0;
        boolean isTaken = array.isArray() && hasLast && type.lastParameterType().isAssignableFrom(array);
        try {
            MethodHandle collector = handle.asCollector(array, count);
            if (isTaken || !run.isOwn) {
                return collector;
            }
        } catch (NullPointerException | WrongMethodTypeException thrown) {
            if (isTaken || !run.isOwn) {
                throw thrown;
            }
        }
        throw run.own(Own.COLLECTOR, run.exceptions.make(IllegalArgumentException.class, "gather"));
    }

    private MethodHandle flat() throws ReflectiveOperationException {
        MethodType type = MethodType.methodType(Object[].class, Object[].class);
        return MethodHandles.lookup().bind(this, "flat", type);
    }

    /** Items among which is no array. */
    private Object[] flat(Object[] items) throws Throwable {
        if (Arrays.stream(items).anyMatch(item -> item != null && item.getClass().isArray())) {
            throw run.own(Own.NESTED, run.exceptions.make(InternalError.class, "nested array"));
        }
        return items;
    }
}

/** What mh's `catch` gives for a target whose arguments take all slots that there are, which catchException refuses. */
final class WideCatch {
    private final MethodHandle target;
    private final Class<?> type;
    private final MethodHandle handler;

    WideCatch(MethodHandle target, Class<?> type, MethodHandle handler) {
        this.target = target;
        this.type = type;
        this.handler = handler;
    }

    /** Whether catchException refuses them for the slots alone. */
    static boolean isRefused(MethodType target, Class<?> type, MethodType handler) {
        List<Class<?>> handled = handler.parameterList();
        return Descriptors.slots(target) == Descriptors.MOST_SLOTS
                && handler.returnType() == target.returnType()
                && !handled.isEmpty()
                && handled.get(0).isAssignableFrom(type)
                && handled.size() <= 1 + target.parameterCount()
                && handled.subList(1, handled.size()).equals(target.parameterList().subList(0, handled.size() - 1));
    }

    MethodHandle handle() throws ReflectiveOperationException {
        MethodType ofArray = MethodType.methodType(Object.class, Object[].class);
        MethodHandle caught = MethodHandles.lookup().bind(this, "caught", ofArray);
        return caught.asCollector(Object[].class, target.type().parameterCount()).asType(target.type());
    }

    private Object caught(Object[] arguments) throws Throwable {
        try {
            return target.asSpreader(Object[].class, arguments.length).invoke(arguments);
        } catch (Throwable thrown) {
            if (!type.isInstance(thrown)) {
                throw thrown;
            }
            Object[] handled = Arrays.copyOf(arguments, handler.type().parameterCount() - 1);
            return handler.bindTo(thrown).asSpreader(Object[].class, handled.length).invoke(handled);
        }
    }
}

/** What StringConcatFactory.makeConcatWithConstants links, with what mh gives in the place of some of it. */
final class Concatenation {
    private static final MethodType FACTORY_TYPE = MethodType.methodType(
            CallSite.class, MethodHandles.Lookup.class, String.class, MethodType.class, String.class, Object[].class);
    private static final String FACTORY = Names.reference(
            "java/lang/invoke/StringConcatFactory", "makeConcatWithConstants", FACTORY_TYPE.descriptorString());
    private static final char REPLACEMENT = '\uFFFD';

    private final Run run;

    Concatenation(Run run) {
        this.run = run;
    }

    /** Whether a site with this bootstrap method is a concatenation, whatever scripts there are. */
    static boolean isLinkedBy(HandleTo bootstrap) {
        return bootstrap.reference().equals(FACTORY);
    }

    MethodHandle target(Request asked) throws Throwable {
        if (!run.isOwn) {
            return linked(asked, asked.type());
        }
        var request = new Request(asked.caller(), asked.name(), asked.type(), withTexts(asked.arguments()));
        linked(request, request.type());
        checkConstants(request.arguments());
        return limited(withTexts(linked(request, erased(request.type())), request.type()));
    }

    /** What the machine links at a site of this type. */
    private static MethodHandle linked(Request request, MethodType type) throws Throwable {
        List<Object> words = new ArrayList<>(List.of(request.caller(), request.name(), type));
        words.addAll(Arrays.asList(request.arguments()));
        MethodHandle factory = MethodHandles.publicLookup().findStatic(
                StringConcatFactory.class, "makeConcatWithConstants", FACTORY_TYPE);
        return ((CallSite) factory.invokeWithArguments(words)).getTarget();
    }

    /** The recipe and the constants, with mh's texts for null and for a half of a surrogate pair. */
    private Object[] withTexts(Object[] arguments) throws Throwable {
        Object[] texts = arguments.clone();
        for (int i = 0; i < texts.length; i++) {
            if (texts[i] == null) {
                run.count(Own.NULLS);
                texts[i] = "null";
            } else if (texts[i] instanceof Character unit) {
                texts[i] = whole(unit);
            }
        }
        if (arguments.length > 0 && arguments[0] == null) {
            throw run.exceptions.make(ClassCastException.class, "arguments");
        }
        return texts;
    }

    /** mh has no text for a class, a type or a handle. */
    private void checkConstants(Object[] arguments) throws Throwable {
        boolean areValues = Arrays.stream(arguments)
                .allMatch(it -> it instanceof String || Primitive.wraps(it.getClass()));
        if (!areValues) {
            throw run.own(Own.CLASSES, run.exceptions.make(UnsupportedOperationException.class, "constant"));
        }
    }

    /** The type with Object in the place of each parameter whose value may have a text of mh's own. */
    private static MethodType erased(MethodType type) {
        MethodType erased = type;
        for (int i = 0; i < type.parameterCount(); i++) {
            Class<?> parameter = type.parameterType(i);
            boolean isKept = parameter.isPrimitive() || parameter == String.class;
            erased = isKept ? erased : erased.changeParameterType(i, Object.class);
        }
        return erased;
    }

    /** A handle of the erased type as one of the type itself, whose arguments have the texts that mh gives them. */
    private MethodHandle withTexts(MethodHandle joined, MethodType type) throws ReflectiveOperationException {
        MethodHandle text = own("text", MethodType.methodType(Object.class, Object.class));
        MethodHandle whole = own("whole", MethodType.methodType(char.class, char.class));
        MethodHandle found = joined;
        for (int i = 0; i < type.parameterCount(); i++) {
            Class<?> parameter = type.parameterType(i);
            if (parameter == char.class) {
                found = MethodHandles.filterArguments(found, i, whole);
            } else if (found.type().parameterType(i) == Object.class) {
                MethodHandle filter = text.asType(MethodType.methodType(Object.class, parameter));
                found = MethodHandles.filterArguments(found, i, filter);
            }
        }
        return found;
    }

    private MethodHandle limited(MethodHandle joined) throws ReflectiveOperationException {
        MethodHandle limited = own("limited", MethodType.methodType(String.class, String.class));
        Class<?> returned = joined.type().returnType();
        return MethodHandles.filterReturnValue(joined, limited.asType(MethodType.methodType(returned, returned)));
    }

    private MethodHandle own(String method, MethodType type) throws ReflectiveOperationException {
        return MethodHandles.lookup().bind(this, method, type);
    }

    /** What stands for a value: its text, where that is one of mh's own. */
    private Object text(Object value) {
        if (value instanceof Character unit) {
            return whole(unit);
        }
        if (value == null || value instanceof String || Primitive.wraps(value.getClass())) {
            return value;
        }
        run.count(Own.TEXTS);
        return ownText(value);
    }

    private String ownText(Object value) {
        if (value instanceof Throwable thrown) {
            String message = thrown.getMessage();
            String name = dotted(run.classes.nameOf(thrown.getClass()));
            return message == null || message.isEmpty() ? name : name + ": " + message;
        } else if (value.getClass().isArray()) {
            return dotted(run.classes.descriptor(value.getClass())) + "@0";
        }
        String[] parts = run.literals.objectParts(value);
        return dotted(parts[0]) + "@" + Long.toHexString(Long.parseLong(parts[1]));
    }

    private static String dotted(String name) {
        return name.replace('/', '.');
    }

    /** A char, or what stands for a half of a surrogate pair. */
    private char whole(char unit) {
        if (!Character.isSurrogate(unit)) {
            return unit;
        }
        run.count(Own.HALVES);
        return REPLACEMENT;
    }

    private String limited(String text) throws Throwable {
        if (Texts.isTooLong(text)) {
            throw run.own(Own.LONG, run.exceptions.make(InternalError.class, "string too long"));
        }
        return text;
    }
}

/** What is asked of the conversions of an asType. */
final class Conversions {
    private Conversions() {}

    /** Whether two arguments of a call of the asked type have conversions that may fail. */
    static boolean orderMatters(MethodType type, MethodType asked) {
        int failing = 0;
        for (int i = 0; i < Math.min(type.parameterCount(), asked.parameterCount()); i++) {
            failing += mayFail(asked.parameterType(i), type.parameterType(i)) ? 1 : 0;
        }
        return failing > 1;
    }

    private static boolean mayFail(Class<?> from, Class<?> to) {
        return !from.isPrimitive() && (to.isPrimitive() || !to.isAssignableFrom(from));
    }

    /** The handle as the asked type, by one asType for each parameter: the first is converted first. */
    static MethodHandle inOrder(MethodHandle handle, MethodType asked) {
        MethodHandle converted = handle;
        for (int i = asked.parameterCount() - 1; i >= 0; i--) {
            converted = converted.asType(converted.type().changeParameterType(i, asked.parameterType(i)));
        }
        return converted.asType(asked);
    }

    /** The same with one explicitCastArguments for each parameter. */
    static MethodHandle explicitlyInOrder(MethodHandle handle, MethodType asked) {
        MethodHandle converted = handle;
        for (int i = asked.parameterCount() - 1; i >= 0; i--) {
            MethodType next = converted.type().changeParameterType(i, asked.parameterType(i));
            converted = MethodHandles.explicitCastArguments(converted, next);
        }
        return MethodHandles.explicitCastArguments(converted, asked);
    }

    /** Whether each explicit conversion of a handle of the type to the asked one can give something else than an exception. */
    static boolean canMeet(MethodType type, MethodType asked) {
        for (int i = 0; i < type.parameterCount(); i++) {
            if (!canMeet(asked.parameterType(i), type.parameterType(i))) {
                return false;
            }
        }
        return type.returnType() == void.class || asked.returnType() == void.class
                || canMeet(type.returnType(), asked.returnType());
    }

    /** Whether values of both types can meet: a boxed number may be one of the class. */
    private static boolean canMeet(Class<?> from, Class<?> to) {
        if (from.isPrimitive() == to.isPrimitive()) {
            return true;
        }
        return from.isPrimitive()
                ? to.isAssignableFrom(MethodType.methodType(from).wrap().returnType())
                : Primitive.isWrappedBelow(from);
    }
}

/** A line of the plan: a call of a leaf by a type, or of a site. */
record Call(Way way, String leaf, String type, int site, List<String> arguments) {
    enum Way { EXACT, GENERIC, SITE }

    static Call of(List<String> words) {
        if (words.get(0).equals("indy")) {
            return new Call(Way.SITE, null, null, Integer.parseInt(words.get(1)), words.subList(2, words.size()));
        }
        Way way = words.get(0).equals("exact") ? Way.EXACT : Way.GENERIC;
        String leaf = words.get(1).substring("leaf:".length());
        return new Call(way, leaf, words.get(2), 0, words.subList(3, words.size()));
    }
}

/** The lines of an input that count, each as its tokens. */
final class Lines {
    private Lines() {}

    static List<List<String>> read(String file) throws IOException {
        return Files.readAllLines(Path.of(file), StandardCharsets.US_ASCII).stream()
                .filter(line -> !line.isEmpty() && !line.startsWith("#"))
                .map(line -> List.of(line.split(" ")))
                .toList();
    }
}

/** What the manifest declares. */
final class Manifest {
    /** Each class with its superclass, in order. */
    final List<Map.Entry<String, String>> classes = new ArrayList<>();
    final List<Leaf> leaves = new ArrayList<>();

    /** With `isPlain` the methods of leaves have their names, so that a class below overrides them. */
    Manifest(List<List<String>> lines, boolean isPlain) {
        for (List<String> words : lines) {
            if (words.get(0).equals("class")) {
                classes.add(Map.entry(words.get(1), words.get(2)));
            } else {
                boolean isStatic = words.get(0).equals("static");
                int number = leaves.size();
                String method = isPlain ? words.get(2) : "leaf" + number;
                leaves.add(new Leaf(number, isStatic, words.get(1), words.get(2), words.get(3), words.get(4), method));
            }
        }
    }
}

/** A leaf method; `method` is the name that its method has. */
record Leaf(int number, boolean isStatic, String owner, String name, String descriptor, String kind, String method) {
    String reference() {
        return Names.reference(owner, name, descriptor);
    }

    /** What it does with arguments, the receiver first, where so many leaf calls were made before. */
    Object run(Object[] arguments, int before, Exceptions exceptions) throws Throwable {
        return switch (kind) {
            case "iadd" -> (int) arguments[0] + (int) arguments[1];
            case "isub" -> (int) arguments[0] - (int) arguments[1];
            case "imul" -> (int) arguments[0] * (int) arguments[1];
            case "idiv" -> quotient((int) arguments[0], (int) arguments[1], exceptions);
            case "ladd" -> (long) arguments[0] + (long) arguments[1];
            case "ieq" -> (int) arguments[0] == (int) arguments[1];
            case "ilt" -> (int) arguments[0] < (int) arguments[1];
            case "not" -> !(boolean) arguments[0];
            case "concat" -> joined(arguments[0] + "" + arguments[1], exceptions);
            case "length" -> length((String) arguments[0], exceptions);
            case "same", "first" -> arguments[0];
            case "pick" -> (boolean) arguments[0] ? arguments[1] : arguments[2];
            case "tick" -> before;
            case "note" -> null;
            default -> throw exceptions.make(exceptions.classNamed(kind.substring("throw:".length())), "");
        };
    }

    private static int quotient(int dividend, int divisor, Exceptions exceptions) throws Throwable {
        if (divisor == 0) {
            throw exceptions.make(ArithmeticException.class, "/ by zero");
        }
        return dividend / divisor;
    }

    private static String joined(String text, Exceptions exceptions) throws Throwable {
        if (Texts.isTooLong(text)) {
            throw exceptions.make(InternalError.class, "string too long");
        }
        return text;
    }

    private static int length(String text, Exceptions exceptions) throws Throwable {
        if (text == null) {
            throw exceptions.make(NullPointerException.class, "");
        }
        return text.length();
    }
}

/** The exceptions of a run, and what is printed of them. */
final class Exceptions {
    private final Classes classes;
    /** Those that were made here, so that their message is the one that mh gives. */
    private final Set<Throwable> made = Collections.newSetFromMap(new IdentityHashMap<>());

    Exceptions(Classes classes) {
        this.classes = classes;
    }

    Class<?> classNamed(String name) {
        return classes.find(name);
    }

    Throwable make(Class<?> type, String message) {
        try {
            Throwable thrown = (Throwable) classes.whole(type).getConstructor(String.class).newInstance(message);
            made.add(thrown);
            return thrown;
        } catch (ReflectiveOperationException failed) {
            throw new IllegalStateException(failed);
        }
    }

    Throwable wrongType(MethodType have, MethodType want) {
        String message = "have " + classes.descriptor(have) + " want " + classes.descriptor(want);
        return make(WrongMethodTypeException.class, message);
    }

    /** What a site throws whose linking threw this (JVMS SE 17, 5.4.3.6). */
    Throwable recorded(Throwable thrown) {
        if (thrown instanceof Error) {
            return thrown;
        }
        Throwable error = new BootstrapMethodError("", thrown);
        made.add(error);
        return error;
    }

    String show(Throwable thrown) {
        boolean hasCause = thrown instanceof BootstrapMethodError && thrown.getCause() != null;
        return showAlone(thrown) + (hasCause ? " cause " + showAlone(thrown.getCause()) : "");
    }

    private String showAlone(Throwable thrown) {
        String message = thrown.getMessage() == null ? "" : thrown.getMessage();
        String sort = made.contains(thrown) ? " s:" : " jvm:";
        return Texts.shown(classes.nameOf(thrown.getClass())) + sort + Texts.shown(message);
    }
}

/** Literals, read and shown. */
final class Literals {
    private final Classes classes;
    private final Exceptions exceptions;
    private final Map<Object, String> objects = new IdentityHashMap<>();

    Literals(Classes classes, Exceptions exceptions) {
        this.classes = classes;
        this.exceptions = exceptions;
    }

    /** The value of a literal, boxed. */
    Object read(String token) {
        if (token.equals("null")) {
            return null;
        }
        String text = token.substring(2);
        return switch (token.charAt(0)) {
            case 'z', 'Z' -> Boolean.valueOf(text);
            case 'b', 'B' -> Byte.valueOf(text);
            case 'h', 'H' -> Short.valueOf(text);
            case 'c', 'C' -> Character.valueOf((char) Integer.parseInt(text));
            case 'i', 'I' -> Integer.valueOf(text);
            case 'j', 'J' -> Long.valueOf(text);
            case 's' -> Texts.read(text);
            case 'o' -> object(text);
            case 'x' -> exceptions.make(classes.find(text), "");
            default -> array(text);
        };
    }

    private Object object(String text) {
        try {
            String name = text.substring(0, text.indexOf('#'));
            Object object = classes.whole(classes.find(name)).getConstructor().newInstance();
            objects.put(object, "o:" + text);
            return object;
        } catch (ReflectiveOperationException failed) {
            throw new IllegalStateException(failed);
        }
    }

    /** An object's class and number, as its literal has them after `o:`; null where it is no such object. */
    String[] objectParts(Object object) {
        String literal = objects.get(object);
        return literal == null ? null : literal.substring("o:".length()).split("#");
    }

    private Object array(String text) {
        int open = text.indexOf('[');
        String items = text.substring(open + 1, text.lastIndexOf(']'));
        String[] tokens = items.isEmpty() ? new String[0] : items.split(",", -1);
        Object array = Array.newInstance(classes.type(text.substring(0, open)), tokens.length);
        for (int i = 0; i < tokens.length; i++) {
            Array.set(array, i, read(tokens[i]));
        }
        return array;
    }

    /** A result of a type, as it is printed. */
    String show(Object value, Class<?> type) {
        return type == void.class ? "void" : Texts.cut(literal(value, type));
    }

    private String literal(Object value, Class<?> type) {
        if (value == null) {
            return "null";
        } else if (value instanceof String text) {
            return "s:" + Texts.escaped(text);
        } else if (value instanceof Throwable thrown) {
            return "x:" + Texts.escaped(classes.nameOf(thrown.getClass()));
        } else if (value.getClass().isArray()) {
            return arrayLiteral(value);
        } else if (objects.containsKey(value)) {
            return Texts.escaped(objects.get(value));
        }
        return mark(value, type) + ":" + (value instanceof Character unit ? Integer.valueOf(unit) : value);
    }

    /** The letter of a number's literal, which is the one of its type but for a short. */
    private static String mark(Object value, Class<?> type) {
        String letter = MethodType.methodType(value.getClass()).unwrap().returnType().descriptorString();
        String mark = letter.equals("S") ? "H" : letter;
        return type.isPrimitive() ? mark.toLowerCase() : mark;
    }

    private String arrayLiteral(Object array) {
        Class<?> component = array.getClass().getComponentType();
        List<String> items = new ArrayList<>();
        for (int i = 0; i < Array.getLength(array); i++) {
            items.add(literal(Array.get(array, i), component));
        }
        return "a:" + Texts.escaped(classes.descriptor(component)) + "[" + String.join(",", items) + "]";
    }
}

/** Texts with the escapes of mh. */
final class Texts {
    private static final int LONGEST = 4096;
    private static final int LONGEST_SHOWN = 1024;
    private static final Pattern ESCAPE = Pattern.compile("\\\\(s|c|n|\\\\|u\\{([0-9a-f]+)\\})");

    private Texts() {}

    /** Whether a text has more characters than a value may have. */
    static boolean isTooLong(String text) {
        return text.codePointCount(0, text.length()) > LONGEST;
    }

    static String read(String text) {
        return ESCAPE.matcher(text).replaceAll(escape -> Matcher.quoteReplacement(character(escape)));
    }

    private static String character(MatchResult escape) {
        return switch (escape.group(1).charAt(0)) {
            case 's' -> " ";
            case 'c' -> ",";
            case 'n' -> "\n";
            case '\\' -> "\\";
            default -> Character.toString(Integer.parseInt(escape.group(2), 16));
        };
    }

    static String escaped(String text) {
        return text.codePoints().mapToObj(Texts::escape).collect(Collectors.joining());
    }

    private static String escape(int c) {
        return switch (c) {
            case ' ' -> "\\s";
            case ',' -> "\\c";
            case '\n' -> "\\n";
            case '\\' -> "\\\\";
            default -> '!' <= c && c <= '~' ? Character.toString(c) : "\\u{" + Integer.toHexString(c) + "}";
        };
    }

    static String cut(String text) {
        return text.length() > LONGEST_SHOWN ? text.substring(0, LONGEST_SHOWN) + "..." : text;
    }

    static String shown(String text) {
        return cut(escaped(text));
    }
}

/** Names of methods. */
final class Names {
    private Names() {}

    static String reference(String owner, String name, String descriptor) {
        return owner + "." + name + ":" + descriptor;
    }

    static String ownerOf(String reference) {
        return reference.substring(0, reference.indexOf('.'));
    }
}

/** Descriptors as texts. */
final class Descriptors {
    /** The slots of the parameters of a handle's type. */
    static final int MOST_SLOTS = 254;

    private static final Pattern TYPE = Pattern.compile("\\[*(?:[BCDFIJSZV]|L[^;]+;)");
    private static final Pattern FIELD = Pattern.compile("\\[{0,255}(?:[BCDFIJSZ]|L[^;.\\[]+;)");
    private static final Pattern LEFT_OUT = Pattern.compile("\\[*[DF]|\\[\\[.*", Pattern.DOTALL);
    private static final Pattern CLASS = Pattern.compile("L([^;]+);");

    private Descriptors() {}

    /** The types in a text, in order; of a method descriptor the return type is the last one. */
    static List<String> typesOf(String text) {
        return TYPE.matcher(text).results().map(MatchResult::group).toList();
    }

    /** Whether a text is the descriptor of one type. */
    static boolean isType(String text) {
        return FIELD.matcher(text).matches();
    }

    static boolean isArray(String text) {
        return text.startsWith("[") && isType(text);
    }

    /** Whether it is a type that mh lacks. */
    static boolean isLeftOut(String type) {
        return LEFT_OUT.matcher(type).matches();
    }

    /** The name of the class in a type; null where it has none. */
    static String className(String type) {
        int start = type.indexOf('L');
        return start < 0 ? null : type.substring(start + 1, type.length() - 1);
    }

    /** A descriptor with other names of classes. */
    static String renamed(String text, UnaryOperator<String> names) {
        return CLASS.matcher(text).replaceAll(
                found -> Matcher.quoteReplacement("L" + names.apply(found.group(1)) + ";"));
    }

    static boolean isTooWide(MethodType type) {
        return slots(type) > MOST_SLOTS;
    }

    static int slots(MethodType type) {
        return type.parameterList().stream().map(Class::descriptorString).mapToInt(Descriptors::slotsOf).sum();
    }

    static int slotsOf(String type) {
        return type.equals("J") || type.equals("D") ? 2 : 1;
    }
}

/** The classes of a run by their names, and the classes that are made for it. */
final class Classes extends ClassLoader {
    /** The made class that has methods for the leaves of built-in classes. */
    static final String LEAVES = "made/Leaves";

    private static final String ABSENT = "absent/Class";
    private static final Map<String, Class<?>> BUILT_IN = Stream.of(
                    Object.class, Number.class, Integer.class, Long.class, Byte.class, Short.class, Boolean.class,
                    Character.class, String.class, Throwable.class, Exception.class, RuntimeException.class,
                    Error.class, LinkageError.class, BootstrapMethodError.class, NoClassDefFoundError.class,
                    IncompatibleClassChangeError.class, NoSuchMethodError.class, VirtualMachineError.class,
                    InternalError.class, WrongMethodTypeException.class, ClassCastException.class,
                    NullPointerException.class, IllegalArgumentException.class, ArithmeticException.class,
                    UnsupportedOperationException.class, StringConcatException.class, StackOverflowError.class)
            .collect(Collectors.toMap(Classes::internal, type -> type));

    /** The names that made classes have for the classes of the manifest. */
    private final Map<String, String> internal = new HashMap<>();
    private final Map<String, byte[]> pending = new HashMap<>();
    private final Map<String, Class<?>> found = new HashMap<>(BUILT_IN);
    private final Map<Class<?>, String> names = new HashMap<>();
    private final Map<Class<?>, Class<?>> whole = new HashMap<>();
    private final Map<String, Caller> callers = new HashMap<>();
    private final Map<Leaf, MethodHandle> handles = new HashMap<>();
    private final Map<Members, Class<?>> files = new IdentityHashMap<>();

    Classes(Manifest manifest) {
        super(Classes.class.getClassLoader());
        BUILT_IN.keySet().forEach(name -> internal.put(name, name));
        manifest.classes.forEach(declared -> internal.put(declared.getKey(), "declared/Class" + internal.size()));
        Map<String, List<Leaf>> leaves = manifest.leaves.stream().collect(Collectors.groupingBy(this::holder));
        ClassBytes.define(pending, ClassBytes.plain(LEAVES, "java/lang/Object"), leaves, this);
        for (var declared : manifest.classes) {
            var bytes = ClassBytes.plain(internal.get(declared.getKey()), internal.get(declared.getValue()));
            bytes.constructors(isThrowable(manifest, declared.getKey()));
            ClassBytes.define(pending, bytes, leaves, this);
        }
        manifest.classes.forEach(declared -> found.put(declared.getKey(), load(internal.get(declared.getKey()))));
        found.forEach((name, type) -> names.put(type, name));
    }

    static String internal(Class<?> type) {
        return type.getName().replace('.', '/');
    }

    private static boolean isThrowable(Manifest manifest, String name) {
        Map<String, String> parents = manifest.classes.stream()
                .collect(Collectors.toMap(Map.Entry::getKey, Map.Entry::getValue));
        String ancestor = name;
        while (parents.containsKey(ancestor)) {
            ancestor = parents.get(ancestor);
        }
        return Throwable.class.isAssignableFrom(BUILT_IN.get(ancestor));
    }

    /** The made class that has the method of a leaf: its owner, if that is made. */
    String holder(Leaf leaf) {
        return BUILT_IN.containsKey(leaf.owner()) ? LEAVES : internal.get(leaf.owner());
    }

    /** The descriptor of the method of a leaf. */
    String methodDescriptor(Leaf leaf) {
        String descriptor = renamed(leaf.descriptor());
        boolean hasReceiver = !leaf.isStatic() && BUILT_IN.containsKey(leaf.owner());
        return hasReceiver ? descriptor.replaceFirst("\\(", "(L" + leaf.owner() + ";") : descriptor;
    }

    /** Whether the method of a leaf is static. */
    boolean isStatic(Leaf leaf) {
        return leaf.isStatic() || BUILT_IN.containsKey(leaf.owner());
    }

    /** A text with the names that made classes have for the classes in its types. */
    String renamed(String descriptor) {
        return Descriptors.renamed(descriptor, this::internalName);
    }

    String internalName(String name) {
        return internal.getOrDefault(name, ABSENT);
    }

    @Override
    protected Class<?> findClass(String name) throws ClassNotFoundException {
        byte[] bytes = pending.remove(name.replace('.', '/'));
        if (bytes == null) {
            throw new ClassNotFoundException(name);
        }
        return defineClass(name, bytes, 0, bytes.length);
    }

    private Class<?> load(String internalName) {
        try {
            return Class.forName(internalName.replace('/', '.'), true, this);
        } catch (ClassNotFoundException failed) {
            throw new IllegalStateException(failed);
        }
    }

    private Class<?> define(ClassBytes bytes) {
        byte[] whole = bytes.bytes();
        return defineClass(null, whole, 0, whole.length);
    }

    /** The class of a name; null where there is none. */
    Class<?> find(String name) {
        return found.get(name);
    }

    /** The name of a class. */
    String nameOf(Class<?> type) {
        return names.getOrDefault(type, internal(type));
    }

    /** The class, or one below it in its place if it is abstract. */
    Class<?> whole(Class<?> type) {
        return Modifier.isAbstract(type.getModifiers()) ? whole.computeIfAbsent(type, this::standIn) : type;
    }

    private Class<?> standIn(Class<?> type) {
        ClassBytes bytes = ClassBytes.plain("made/Some" + type.getSimpleName(), internal(type));
        bytes.constructors(Throwable.class.isAssignableFrom(type));
        Class<?> made = define(bytes);
        names.put(made, nameOf(type));
        return made;
    }

    /** The class of a type's descriptor. */
    Class<?> type(String descriptor) {
        return MethodType.fromMethodDescriptorString("()" + renamed(descriptor), this).returnType();
    }

    MethodType methodType(String descriptor) {
        return MethodType.fromMethodDescriptorString(renamed(descriptor), this);
    }

    /** Arguments of a type; where mh cannot read the type, so that there are none, the defaults of its parameters. */
    Object[] filled(String descriptor, Object[] arguments) {
        List<String> types = Descriptors.typesOf(descriptor);
        return arguments.length == types.size() - 1
                ? arguments
                : types.subList(0, types.size() - 1).stream().map(Classes::zero).toArray();
    }

    private static Object zero(String type) {
        Primitive primitive = Primitive.of(type);
        return primitive == null ? null : Array.get(Array.newInstance(primitive.type, 1), 0);
    }

    /** The class that a method type returns; void where it cannot be read. */
    Class<?> returned(String descriptor) {
        String returned = descriptor.substring(descriptor.indexOf(')') + 1);
        String name = Descriptors.className(returned);
        return name == null || find(name) != null ? type(returned) : void.class;
    }

    String descriptor(Class<?> type) {
        if (type.isArray()) {
            return "[" + descriptor(type.getComponentType());
        }
        return type.isPrimitive() ? type.descriptorString() : "L" + nameOf(type) + ";";
    }

    String descriptor(MethodType type) {
        String parameters = type.parameterList().stream().map(this::descriptor).collect(Collectors.joining());
        return "(" + parameters + ")" + descriptor(type.returnType());
    }

    String show(MethodType type) {
        return Texts.shown(descriptor(type));
    }

    /** The method handle of a leaf. */
    MethodHandle handleOf(Leaf leaf) {
        return handles.computeIfAbsent(leaf, this::findHandle);
    }

    private MethodHandle findHandle(Leaf leaf) {
        try {
            Class<?> holder = load(holder(leaf));
            MethodType type = MethodType.fromMethodDescriptorString(methodDescriptor(leaf), this);
            return isStatic(leaf)
                    ? MethodHandles.publicLookup().findStatic(holder, leaf.method(), type)
                    : MethodHandles.publicLookup().findVirtual(holder, leaf.method(), type);
        } catch (ReflectiveOperationException failed) {
            throw new IllegalStateException(failed);
        }
    }

    /** What calls handles by a type. */
    Caller caller(String descriptor) {
        return callers.computeIfAbsent(
                renamed(descriptor), type -> new Caller(define(ClassBytes.caller(type, callers.size()))));
    }

    /** What executes an invokedynamic instruction that names what a site names. */
    Caller siteCaller(Site site, Run run) {
        boolean isAlone = site.file.constants().isEmpty();
        Class<?> made = isAlone ? define(new SiteBytes(run).of(site)) : of(site.file, run);
        return new Caller(made, "site" + site.number);
    }

    /** What loads a constant. */
    Caller constantCaller(DynamicConstant constant, Run run) {
        return new Caller(of(constant.file, run), "constant" + constant.view.number());
    }

    /** The made class that has the constants of a class file, and its sites, so that they share them. */
    private Class<?> of(Members file, Run run) {
        return files.computeIfAbsent(file, it -> define(new SiteBytes(run).of(it, files.size())));
    }
}

/** The methods of a made class that calls handles by one type, or that has sites and constants. */
final class Caller {
    private final MethodHandle exact;
    private final MethodHandle generic;
    private final MethodHandle site;
    private final MethodHandle constant;

    Caller(Class<?> made) {
        this(made, "");
    }

    /** With the name of the method that has the instruction. */
    Caller(Class<?> made, String name) {
        MethodType ofHandle = MethodType.methodType(Object.class, MethodHandle.class, Object[].class);
        exact = method(made, "exact", ofHandle);
        generic = method(made, "generic", ofHandle);
        site = method(made, name, MethodType.methodType(Object.class, Object[].class));
        constant = method(made, name, MethodType.methodType(Object.class));
    }

    private static MethodHandle method(Class<?> made, String name, MethodType type) {
        try {
            return MethodHandles.publicLookup().findStatic(made, name, type);
        } catch (ReflectiveOperationException absent) {
            return null;
        }
    }

    /** Calls by `MethodHandle.invokeExact`. */
    Object exact(MethodHandle handle, Object[] arguments) throws Throwable {
        return exact.invokeExact(handle, arguments);
    }

    /** Calls by `MethodHandle.invoke`. */
    Object generic(MethodHandle handle, Object[] arguments) throws Throwable {
        return generic.invokeExact(handle, arguments);
    }

    /** Executes the invokedynamic instruction. */
    Object site(Object[] arguments) throws Throwable {
        return site.invokeExact(arguments);
    }

    /** Executes the instruction that loads a constant. */
    Object constant() throws Throwable {
        return constant.invokeExact();
    }
}

/** A primitive type in class files: its wrapper, and the opcodes that load and return it. */
enum Primitive {
    BOOLEAN(boolean.class, "java/lang/Boolean", 21, 172),
    BYTE(byte.class, "java/lang/Byte", 21, 172),
    SHORT(short.class, "java/lang/Short", 21, 172),
    CHAR(char.class, "java/lang/Character", 21, 172),
    INT(int.class, "java/lang/Integer", 21, 172),
    LONG(long.class, "java/lang/Long", 22, 173),
    FLOAT(float.class, "java/lang/Float", 23, 174),
    DOUBLE(double.class, "java/lang/Double", 24, 175);

    final Class<?> type;
    final String wrapper;
    final int load;
    final int giveBack;

    Primitive(Class<?> type, String wrapper, int load, int giveBack) {
        this.type = type;
        this.wrapper = wrapper;
        this.load = load;
        this.giveBack = giveBack;
    }

    /** The primitive type of a descriptor; null where it is none. */
    static Primitive of(String descriptor) {
        return Arrays.stream(values())
                .filter(primitive -> primitive.type.descriptorString().equals(descriptor))
                .findFirst().orElse(null);
    }

    /** Whether values of a class are boxed ones of a primitive type. */
    static boolean wraps(Class<?> type) {
        return Arrays.stream(values()).anyMatch(primitive -> primitive.wrapper.equals(Classes.internal(type)));
    }

    /** Whether boxed values of a primitive type that mh has are of a class. */
    static boolean isWrappedBelow(Class<?> type) {
        return Arrays.stream(values())
                .filter(primitive -> primitive != FLOAT && primitive != DOUBLE)
                .anyMatch(primitive -> type.isAssignableFrom(MethodType.methodType(primitive.type).wrap().returnType()));
    }

    String unboxing() {
        return name().toLowerCase() + "Value";
    }
}

/** Bytes of a class file, big-endian. */
final class Bytes {
    private final ByteArrayOutputStream bytes = new ByteArrayOutputStream();

    Bytes u1(int... numbers) {
        for (int number : numbers) {
            bytes.write(number);
        }
        return this;
    }

    Bytes u2(int number) {
        return u1(number >> 8, number);
    }

    Bytes u4(int number) {
        return u2(number >> 16).u2(number);
    }

    Bytes all(Bytes other) {
        bytes.writeBytes(other.bytes.toByteArray());
        return this;
    }

    /** A text in modified UTF-8, its length before it. */
    Bytes text(String text) {
        try {
            new DataOutputStream(bytes).writeUTF(text);
            return this;
        } catch (IOException failed) {
            throw new UncheckedIOException(failed);
        }
    }

    int length() {
        return bytes.size();
    }

    byte[] array() {
        return bytes.toByteArray();
    }
}

/** A class file that is written (JVMS SE 17, chapter 4). Its code has no jumps, so it needs no frames. */
final class ClassBytes {
    private static final String OBJECT = "java/lang/Object";
    private static final int MAGIC = 0xCAFEBABE;
    private static final int MAJOR = 61;
    private static final int PUBLIC = 1;
    private static final int STATIC = 8;
    private static final int SUPER = 0x20;
    /** More than any code here needs: 255 slots of arguments beside those of one that is made. */
    private static final int STACK = 300;

    private static final int ACONST_NULL = 1;
    private static final int SIPUSH = 17;
    private static final int LDC_W = 19;
    private static final int LDC2_W = 20;
    private static final int ALOAD = 25;
    private static final int AALOAD = 50;
    private static final int AASTORE = 83;
    private static final int POP = 87;
    private static final int DUP = 89;
    private static final int ARETURN = 176;
    private static final int RETURN = 177;
    private static final int INVOKEVIRTUAL = 182;
    private static final int INVOKESPECIAL = 183;
    private static final int INVOKESTATIC = 184;
    private static final int INVOKEDYNAMIC = 186;
    private static final int ANEWARRAY = 189;
    private static final int CHECKCAST = 192;

    private final String name;
    private final String parent;
    private final Map<List<Object>, Integer> indexes = new HashMap<>();
    private final Bytes pool = new Bytes();
    private int poolCount = 1;
    private final Bytes methods = new Bytes();
    private int methodCount;
    private final List<Bytes> bootstraps = new ArrayList<>();

    private ClassBytes(String name, String parent) {
        this.name = name;
        this.parent = parent;
    }

    /** A class without members. */
    static ClassBytes plain(String name, String parent) {
        return new ClassBytes(name, parent);
    }

    /** Puts the class with the methods of its leaves among those that wait to be loaded. */
    static void define(Map<String, byte[]> pending, ClassBytes bytes, Map<String, List<Leaf>> leaves, Classes classes) {
        leaves.getOrDefault(bytes.name, List.of()).forEach(leaf -> bytes.leaf(leaf, classes));
        pending.put(bytes.name, bytes.bytes());
    }

    // The constant pool.

    private int entry(int size, Bytes entry, Object... key) {
        Integer known = indexes.get(List.of(key));
        if (known != null) {
            return known;
        }
        int index = poolCount;
        indexes.put(List.of(key), index);
        pool.all(entry);
        poolCount += size;
        return index;
    }

    private int utf8(String text) {
        return entry(1, new Bytes().u1(1).text(text), 1, text);
    }

    private int named(int tag, int index) {
        return entry(1, new Bytes().u1(tag).u2(index), tag, index);
    }

    private int pair(int tag, int first, int second) {
        return entry(1, new Bytes().u1(tag).u2(first).u2(second), tag, first, second);
    }

    int integer(int number) {
        return entry(1, new Bytes().u1(3).u4(number), 3, number);
    }

    int longNumber(long number) {
        return entry(2, new Bytes().u1(5).u4((int) (number >> 32)).u4((int) number), 5, number);
    }

    int floatNumber(float number) {
        return entry(1, new Bytes().u1(4).u4(Float.floatToIntBits(number)), 4, number);
    }

    int doubleNumber(double number) {
        long bits = Double.doubleToLongBits(number);
        return entry(2, new Bytes().u1(6).u4((int) (bits >> 32)).u4((int) bits), 6, number);
    }

    int classNamed(String internalName) {
        return named(7, utf8(internalName));
    }

    int string(String text) {
        return named(8, utf8(text));
    }

    int methodType(String descriptor) {
        return named(16, utf8(descriptor));
    }

    private int nameAndType(String method, String descriptor) {
        return pair(12, utf8(method), utf8(descriptor));
    }

    private int method(String owner, String method, String descriptor) {
        return pair(10, classNamed(owner), nameAndType(method, descriptor));
    }

    int handle(int kind, String owner, String method, String descriptor) {
        int index = method(owner, method, descriptor);
        return entry(1, new Bytes().u1(15, kind).u2(index), 15, kind, index);
    }

    // Methods.

    private void method(int flags, String method, String descriptor, Bytes code) {
        methods.u2(flags).u2(utf8(method)).u2(utf8(descriptor)).u2(1);
        methods.u2(utf8("Code")).u4(12 + code.length()).u2(2 * STACK).u2(STACK).u4(code.length());
        methods.all(code).u2(0).u2(0);
        methodCount++;
    }

    /** A constructor without parameters, and for a Throwable one that takes a message, which both call. */
    void constructors(boolean isThrowable) {
        if (isThrowable) {
            Bytes given = new Bytes().u1(ALOAD, 0, ALOAD, 1).u1(INVOKESPECIAL);
            String takesText = "(Ljava/lang/String;)V";
            method(PUBLIC, "<init>", takesText, given.u2(method(parent, "<init>", takesText)).u1(RETURN));
            Bytes none = new Bytes().u1(ALOAD, 0, ACONST_NULL).u1(INVOKESPECIAL);
            method(PUBLIC, "<init>", "()V", none.u2(method(name, "<init>", takesText)).u1(RETURN));
        } else {
            Bytes code = new Bytes().u1(ALOAD, 0).u1(INVOKESPECIAL).u2(method(parent, "<init>", "()V"));
            method(PUBLIC, "<init>", "()V", code.u1(RETURN));
        }
    }

    /** The method of a leaf: it hands its arguments on, the receiver first. */
    private void leaf(Leaf leaf, Classes classes) {
        String descriptor = classes.methodDescriptor(leaf);
        List<String> types = new ArrayList<>(Descriptors.typesOf(descriptor));
        String returned = types.remove(types.size() - 1);
        boolean isStatic = classes.isStatic(leaf);
        if (!isStatic) {
            types.add(0, "L" + name + ";");
        }
        Bytes code = new Bytes();
        if (isStatic && !leaf.isStatic()) {
            String descriptorOfCheck = "(Ljava/lang/Object;)Ljava/lang/Object;";
            int check = method("java/util/Objects", "requireNonNull", descriptorOfCheck);
            code.u1(ALOAD, 0, INVOKESTATIC).u2(check).u1(POP);
        }
        code.u1(SIPUSH).u2(leaf.number());
        packed(code, types);
        code.u1(INVOKESTATIC).u2(method("AgainstJava", "leafCalled", "(I[Ljava/lang/Object;)Ljava/lang/Object;"));
        unboxed(code, returned);
        code.u1(returning(returned));
        method(isStatic ? PUBLIC | STATIC : PUBLIC, leaf.method(), descriptor, code);
    }

    /** Pushes an array of the boxed parameters. */
    private void packed(Bytes code, List<String> types) {
        code.u1(SIPUSH).u2(types.size()).u1(ANEWARRAY).u2(classNamed(OBJECT));
        int local = 0;
        for (int i = 0; i < types.size(); i++) {
            Primitive primitive = Primitive.of(types.get(i));
            code.u1(DUP, SIPUSH).u2(i).u1(primitive == null ? ALOAD : primitive.load, local);
            boxed(code, types.get(i));
            code.u1(AASTORE);
            local += Descriptors.slotsOf(types.get(i));
        }
    }

    /** Pushes the items of the array in a local variable, each as its type. */
    private void unpacked(Bytes code, List<String> types, int local) {
        for (int i = 0; i < types.size(); i++) {
            code.u1(ALOAD, local, SIPUSH).u2(i).u1(AALOAD);
            unboxed(code, types.get(i));
        }
    }

    private void boxed(Bytes code, String type) {
        Primitive primitive = Primitive.of(type);
        if (primitive != null) {
            String descriptor = "(" + type + ")L" + primitive.wrapper + ";";
            code.u1(INVOKESTATIC).u2(method(primitive.wrapper, "valueOf", descriptor));
        } else if (type.equals("V")) {
            code.u1(ACONST_NULL);
        }
    }

    private void unboxed(Bytes code, String type) {
        Primitive primitive = Primitive.of(type);
        if (primitive != null) {
            code.u1(CHECKCAST).u2(classNamed(primitive.wrapper));
            code.u1(INVOKEVIRTUAL).u2(method(primitive.wrapper, primitive.unboxing(), "()" + type));
        } else if (type.equals("V")) {
            code.u1(POP);
        } else {
            String className = type.startsWith("[") ? type : Descriptors.className(type);
            code.u1(CHECKCAST).u2(classNamed(className));
        }
    }

    private static int returning(String type) {
        Primitive primitive = Primitive.of(type);
        return primitive != null ? primitive.giveBack : type.equals("V") ? RETURN : ARETURN;
    }

    /** A class with methods that call a handle by a type. */
    static ClassBytes caller(String type, int number) {
        var made = new ClassBytes("made/Caller" + number, OBJECT);
        made.handleCall("exact", "invokeExact", type);
        made.handleCall("generic", "invoke", type);
        return made;
    }

    private void handleCall(String method, String invoked, String type) {
        List<String> types = Descriptors.typesOf(type);
        Bytes code = new Bytes().u1(ALOAD, 0);
        unpacked(code, types.subList(0, types.size() - 1), 1);
        code.u1(INVOKEVIRTUAL).u2(method("java/lang/invoke/MethodHandle", invoked, type));
        boxed(code, types.get(types.size() - 1));
        String descriptor = "(Ljava/lang/invoke/MethodHandle;[Ljava/lang/Object;)Ljava/lang/Object;";
        method(PUBLIC | STATIC, method, descriptor, code.u1(ARETURN));
    }

    /** A method with an invokedynamic instruction of a type, and its bootstrap method with static arguments. */
    void site(String method, String type, int bootstrapHandle, List<Integer> arguments) {
        List<String> types = Descriptors.typesOf(type);
        Bytes code = new Bytes();
        unpacked(code, types.subList(0, types.size() - 1), 0);
        int number = place();
        put(number, bootstrapHandle, arguments);
        code.u1(INVOKEDYNAMIC).u2(pair(18, number, nameAndType("site", type))).u2(0);
        boxed(code, types.get(types.size() - 1));
        method(PUBLIC | STATIC, method, "([Ljava/lang/Object;)Ljava/lang/Object;", code.u1(ARETURN));
    }

    /** The number of a bootstrap method that is put later. */
    int place() {
        bootstraps.add(null);
        return bootstraps.size() - 1;
    }

    /** Puts a bootstrap method with its static arguments. */
    void put(int number, int handle, List<Integer> arguments) {
        Bytes bootstrap = new Bytes().u2(handle).u2(arguments.size());
        arguments.forEach(bootstrap::u2);
        bootstraps.set(number, bootstrap);
    }

    /** A dynamic constant of a type, whose bootstrap method has a number. */
    int dynamic(int number, String type) {
        return pair(17, number, nameAndType("constant", type));
    }

    /** A method that loads a constant of a type. */
    void load(String method, int index, String type) {
        Bytes code = new Bytes().u1(Descriptors.slotsOf(type) == 2 ? LDC2_W : LDC_W).u2(index);
        boxed(code, type);
        method(PUBLIC | STATIC, method, "()Ljava/lang/Object;", code.u1(ARETURN));
    }

    byte[] bytes() {
        Bytes rest = new Bytes().u2(PUBLIC | SUPER).u2(classNamed(name)).u2(classNamed(parent)).u2(0).u2(0);
        rest.u2(methodCount).all(methods).u2(bootstraps.isEmpty() ? 0 : 1);
        if (!bootstraps.isEmpty()) {
            Bytes contents = new Bytes().u2(bootstraps.size());
            bootstraps.forEach(contents::all);
            rest.u2(utf8("BootstrapMethods")).u4(contents.length()).all(contents);
        }
        return new Bytes().u4(MAGIC).u2(0).u2(MAJOR).u2(poolCount).all(pool).all(rest).array();
    }
}

/** Writes the class of a site, which has its invokedynamic instruction, or that of a class file. */
final class SiteBytes {
    private static final String ABSENT = "absent";
    private static final String PROGRAM = "AgainstJava";
    private static final String ANY = "Ljava/lang/Object;";
    /** What the bootstrap methods of constants take first. */
    private static final String GIVEN = "(Ljava/lang/invoke/MethodHandles$Lookup;Ljava/lang/String;Ljava/lang/Class;";

    private final Run run;
    private final Resolution resolution;
    private final Map<DynamicConstant, Integer> constants = new IdentityHashMap<>();
    private final Classes classes;
    private final Map<String, Leaf> leaves;
    private final Set<String> scripts;
    private final boolean isOwn;

    SiteBytes(Run run) {
        this.run = run;
        resolution = new Resolution(run);
        classes = run.classes;
        leaves = run.leaves;
        scripts = run.scripts.keySet();
        isOwn = run.isOwn;
    }

    ClassBytes of(Site site) {
        ClassBytes bytes = ClassBytes.plain("made/Site" + site.number, "java/lang/Object");
        put(bytes, site);
        return bytes;
    }

    /** The class of all sites of a class file that the machine links, and of its constants. */
    ClassBytes of(Members file, int number) {
        ClassBytes bytes = ClassBytes.plain("made/File" + number, "java/lang/Object");
        for (DynamicConstant constant : file.constants()) {
            bytes.load("constant" + constant.view.number(), constant(bytes, constant), typeOf(constant));
        }
        for (Site site : file.sites()) {
            Fault fault = resolution.firstFault(site.view);
            if (fault == null || fault.isForMachine() || !isOwn) {
                put(bytes, site);
            }
        }
        return bytes;
    }

    private void put(ClassBytes bytes, Site site) {
        List<Integer> arguments = new ArrayList<>(List.of(bytes.integer(site.number)));
        site.view.arguments().forEach(argument -> arguments.add(argument(bytes, argument)));
        String type = classes.renamed(site.view.descriptor());
        bytes.site("site" + site.number, type, bootstrap(bytes, site.view.bootstrap()), arguments);
    }

    /** The bootstrap method of this program; where mh has no script of the name, a method that is not there. */
    private int bootstrap(ClassBytes bytes, HandleTo handle) {
        if (!scripts.contains(handle.reference()) && !Concatenation.isLinkedBy(handle)) {
            return absent(bytes, handle);
        }
        String descriptor = "(Ljava/lang/invoke/MethodHandles$Lookup;Ljava/lang/String;"
                + "Ljava/lang/invoke/MethodType;[Ljava/lang/Object;)Ljava/lang/invoke/CallSite;";
        return bytes.handle(HandleTo.STATIC, PROGRAM, "link", descriptor);
    }

    private int absent(ClassBytes bytes, HandleTo handle) {
        return bytes.handle(HandleTo.STATIC, owner(handle), ABSENT, "()V");
    }

    /** A dynamic constant; one that mh refuses before its static arguments has none here, and any type. */
    private int constant(ClassBytes bytes, DynamicConstant constant) {
        Integer known = constants.get(constant);
        if (known != null) {
            return known;
        }
        int bootstrap = bytes.place();
        int index = bytes.dynamic(bootstrap, typeOf(constant));
        constants.put(constant, index);
        List<Integer> arguments = new ArrayList<>(List.of(called(bytes, "begin", constant.view.number(), "I")));
        if (!constant.isRefused(run)) {
            constant.view.arguments().forEach(argument -> arguments.add(argument(bytes, argument)));
        }
        bytes.put(bootstrap, giver(bytes, constant), arguments);
        return index;
    }

    /** The type of a constant; any, where its bootstrap method is not called. No class file has a text that is no type. */
    private String typeOf(DynamicConstant constant) {
        String type = constant.view.descriptor();
        return constant.isRefused(run) || !Descriptors.isType(type) ? ANY : classes.renamed(type);
    }

    private int giver(ClassBytes bytes, DynamicConstant constant) {
        HandleTo handle = constant.view.bootstrap();
        boolean isThere = constant.isRefused(run) || scripts.contains(handle.reference());
        String descriptor = GIVEN + "[" + ANY + ")" + ANY;
        return isThere ? bytes.handle(HandleTo.STATIC, PROGRAM, "give", descriptor) : absent(bytes, handle);
    }

    /** A constant whose bootstrap method is a method of this program that takes a number. */
    private int called(ClassBytes bytes, String method, int number, String type) {
        int bootstrap = bytes.place();
        int handle = bytes.handle(HandleTo.STATIC, PROGRAM, method, GIVEN + "I)" + ANY);
        bytes.put(bootstrap, handle, List.of(bytes.integer(number)));
        return bytes.dynamic(bootstrap, type);
    }

    /** The class of a handle; one that is there for an owner that has scripts alone. */
    private String owner(HandleTo handle) {
        boolean hasScripts = scripts.stream().anyMatch(script -> Names.ownerOf(script).equals(handle.owner()));
        boolean isClass = classes.find(handle.owner()) != null;
        return hasScripts && !isClass ? Classes.LEAVES : classes.internalName(handle.owner());
    }

    private int argument(ClassBytes bytes, Object constant) {
        if (constant instanceof ConstantNamed) {
            return constant(bytes, run.constant(constant));
        }
        Fault fault = resolution.faultOfArgument(constant);
        if (isOwn && fault != null && !fault.isForMachine()) {
            return called(bytes, "refuse", run.refuse(fault), ANY);
        }
        if (constant instanceof Integer number) {
            return bytes.integer(number);
        } else if (constant instanceof Long number) {
            return bytes.longNumber(number);
        } else if (constant instanceof Float number) {
            return bytes.floatNumber(number);
        } else if (constant instanceof Double number) {
            return bytes.doubleNumber(number);
        } else if (constant instanceof String text) {
            return bytes.string(text);
        } else if (constant instanceof ClassNamed named) {
            return bytes.classNamed(className(named.text()));
        } else if (constant instanceof TypeNamed type) {
            return bytes.methodType(classes.renamed(type.descriptor()));
        }
        return handle(bytes, (HandleTo) constant);
    }

    private String className(String text) {
        if (text.startsWith("[")) {
            return Descriptors.isArray(text) ? classes.renamed(text) : classes.internalName(text);
        }
        return classes.internalName(text);
    }

    private int handle(ClassBytes bytes, HandleTo handle) {
        Leaf leaf = leaves.get(handle.reference());
        if (leaf == null) {
            return bytes.handle(HandleTo.STATIC, classes.internalName(handle.owner()), ABSENT, "()V");
        }
        int ownKind = classes.isStatic(leaf) ? HandleTo.STATIC : HandleTo.VIRTUAL;
        int kind = isOwn ? ownKind : handle.kind();
        return bytes.handle(kind, classes.holder(leaf), leaf.method(), classes.methodDescriptor(leaf));
    }
}

/** A method handle constant. */
record HandleTo(int kind, String owner, String name, String descriptor) {
    /** The kinds of invokevirtual and invokestatic (JVMS SE 17, 5.4.3.5). */
    static final int VIRTUAL = 5;
    static final int STATIC = 6;

    String reference() {
        return Names.reference(owner, name, descriptor);
    }
}

/** A class constant. */
record ClassNamed(String text) {}

/** A method type constant. */
record TypeNamed(String descriptor) {}

/** A dynamic constant as a static argument: its number over all class files. */
record ConstantNamed(int number) {}

/** What a dynamic constant names. */
record ConstantView(int number, HandleTo bootstrap, String name, String descriptor, List<Object> arguments) {}

/** What an invokedynamic instruction names. Static arguments are boxed numbers, texts or the records above. */
record SiteView(HandleTo bootstrap, String name, String descriptor, List<Object> arguments) {}

/** A class file that is read for its call sites and dynamic constants. It is one that mh accepts. */
final class ClassFile {
    /** An entry of the constant pool that names others: its tag and two numbers. */
    private record Entry(int tag, int first, int second) {}

    /** A bootstrap method. */
    private record Bootstrap(int handle, int[] arguments) {}

    private static final int DYNAMIC = 17;
    private static final int TABLESWITCH = 170;
    private static final int LOOKUPSWITCH = 171;
    private static final int INVOKEDYNAMIC = 186;
    private static final int WIDE = 196;
    private static final int IINC = 132;
    /** For each opcode up to 201 the length of its instruction; 0 for the three that have rules of their own. */
    private static final String LENGTHS = String.join("",
            "1".repeat(16), "2", "3", "2", "33", "22222", "1".repeat(28), "22222", "1".repeat(73), "3",
            "1".repeat(20), "3".repeat(16), "2", "00", "1".repeat(6), "3".repeat(7), "55", "3", "2", "3", "11",
            "33", "11", "0", "4", "33", "55");

    private final DataInputStream in;
    private Object[] pool;
    private final List<Bootstrap> bootstraps = new ArrayList<>();
    private final List<Integer> calls = new ArrayList<>();
    /** The indexes of the dynamic constants, and how many the class files before have. */
    private final List<Integer> dynamics = new ArrayList<>();
    private final int first;

    ClassFile(byte[] bytes, int first) throws IOException {
        this.first = first;
        in = new DataInputStream(new ByteArrayInputStream(bytes));
        in.skipNBytes(8);
        readPool();
        in.skipNBytes(6);
        in.skipNBytes(2 * in.readUnsignedShort());
        readMembers(false);
        readMembers(true);
        readAttributes(false);
    }

    private void readPool() throws IOException {
        pool = new Object[in.readUnsignedShort()];
        for (int i = 1; i < pool.length; i++) {
            int tag = in.readUnsignedByte();
            if (tag == DYNAMIC) {
                dynamics.add(i);
            }
            pool[i] = switch (tag) {
                case 1 -> in.readUTF();
                case 3 -> in.readInt();
                case 4 -> in.readFloat();
                case 5 -> in.readLong();
                case 6 -> in.readDouble();
                case 15 -> new Entry(tag, in.readUnsignedByte(), in.readUnsignedShort());
                case 7, 8, 16, 19, 20 -> new Entry(tag, in.readUnsignedShort(), 0);
                default -> new Entry(tag, in.readUnsignedShort(), in.readUnsignedShort());
            };
            i += tag == 5 || tag == 6 ? 1 : 0;
        }
    }

    private void readMembers(boolean areMethods) throws IOException {
        for (int left = in.readUnsignedShort(); left > 0; left--) {
            in.skipNBytes(6);
            readAttributes(areMethods);
        }
    }

    /** Attributes of the class or of a member; methods alone have code. */
    private void readAttributes(boolean areOfMethod) throws IOException {
        for (int left = in.readUnsignedShort(); left > 0; left--) {
            Object name = pool[in.readUnsignedShort()];
            byte[] contents = in.readNBytes(in.readInt());
            if (areOfMethod && name.equals("Code")) {
                readCode(ByteBuffer.wrap(contents));
            } else if (name.equals("BootstrapMethods")) {
                readBootstraps(ByteBuffer.wrap(contents));
            }
        }
    }

    private void readBootstraps(ByteBuffer contents) {
        for (int left = u2(contents); left > 0; left--) {
            int handle = u2(contents);
            int[] arguments = new int[u2(contents)];
            Arrays.setAll(arguments, i -> u2(contents));
            bootstraps.add(new Bootstrap(handle, arguments));
        }
    }

    private static int u2(ByteBuffer contents) {
        return Short.toUnsignedInt(contents.getShort());
    }

    private void readCode(ByteBuffer contents) {
        int length = contents.getInt(4);
        ByteBuffer code = contents.slice(8, length);
        for (int pc = 0; pc < length; pc += length(code, pc)) {
            if (Byte.toUnsignedInt(code.get(pc)) == INVOKEDYNAMIC) {
                calls.add(Short.toUnsignedInt(code.getShort(pc + 1)));
            }
        }
    }

    private static int length(ByteBuffer code, int pc) {
        int operands = (pc + 4) / 4 * 4;
        int opcode = Byte.toUnsignedInt(code.get(pc));
        return switch (opcode) {
            case TABLESWITCH -> operands + 12 + 4 * (code.getInt(operands + 8) - code.getInt(operands + 4) + 1) - pc;
            case LOOKUPSWITCH -> operands + 8 + 8 * code.getInt(operands + 4) - pc;
            case WIDE -> Byte.toUnsignedInt(code.get(pc + 1)) == IINC ? 6 : 4;
            default -> LENGTHS.charAt(opcode) - '0';
        };
    }

    /** The call sites in the order of the code. */
    List<SiteView> sites() {
        return calls.stream().map(this::site).toList();
    }

    /** The dynamic constants in the order of their indexes. */
    List<ConstantView> constants() {
        return dynamics.stream().map(this::dynamic).toList();
    }

    private SiteView site(int index) {
        Entry call = (Entry) pool[index];
        Entry named = (Entry) pool[call.second()];
        Bootstrap bootstrap = bootstraps.get(call.first());
        return new SiteView(handleOf(bootstrap), text(named.first()), text(named.second()), argumentsOf(bootstrap));
    }

    private ConstantView dynamic(int index) {
        Entry constant = (Entry) pool[index];
        Entry named = (Entry) pool[constant.second()];
        Bootstrap bootstrap = bootstraps.get(constant.first());
        return new ConstantView(numberOf(index), handleOf(bootstrap), text(named.first()), text(named.second()),
                argumentsOf(bootstrap));
    }

    private int numberOf(int index) {
        return first + dynamics.indexOf(index);
    }

    private HandleTo handleOf(Bootstrap bootstrap) {
        return handle((Entry) pool[bootstrap.handle()]);
    }

    private List<Object> argumentsOf(Bootstrap bootstrap) {
        return Arrays.stream(bootstrap.arguments()).mapToObj(this::constant).toList();
    }

    private String text(int index) {
        return (String) pool[index];
    }

    private HandleTo handle(Entry entry) {
        Entry method = (Entry) pool[entry.second()];
        Entry nameAndType = (Entry) pool[method.second()];
        String owner = text(((Entry) pool[method.first()]).first());
        return new HandleTo(entry.first(), owner, text(nameAndType.first()), text(nameAndType.second()));
    }

    private Object constant(int index) {
        if (!(pool[index] instanceof Entry entry)) {
            return pool[index];
        }
        return switch (entry.tag()) {
            case 7 -> new ClassNamed(text(entry.first()));
            case 8 -> text(entry.first());
            case 15 -> handle(entry);
            case 16 -> new TypeNamed(text(entry.first()));
            default -> new ConstantNamed(numberOf(index));
        };
    }
}
