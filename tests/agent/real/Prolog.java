import java.util.Arrays;
import java.util.Map;
import org.jpl7.Atom;
import org.jpl7.Compound;
import org.jpl7.JPL;
import org.jpl7.PrologException;
import org.jpl7.Query;
import org.jpl7.Term;
import org.jpl7.Variable;

/** Queries to SWI-Prolog: an engine for each thread, Java called from Prolog, Prolog's own exceptions. */
public class Prolog {
    public static int called;

    /** Prolog calls it. */
    public static int twice(int number) {
        called++;
        return 2 * number;
    }

    static int sum(int count) {
        Query query = new Query("numlist(1, " + count + ", L), sum_list(L, S)");
        Map<String, Term> found = query.oneSolution();
        return found.get("S").intValue();
    }

    static void asks() {
        new Query("assertz((grand(X, Z) :- parent(X, Y), parent(Y, Z)))").hasSolution();
        for (String fact : new String[] {"parent(ann, bob)", "parent(bob, cid)", "parent(bob, dan)"}) {
            new Query("assertz(" + fact + ")").hasSolution();
        }
        Variable whose = new Variable("W");
        Query query = new Query(new Compound("grand", new Term[] {new Atom("ann"), whose}));
        while (query.hasMoreSolutions()) {
            System.out.println("grandchild " + query.nextSolution().get("W"));
        }
        query.close();
        System.out.println(Arrays.toString(Term.textToTerm("f(X, \"text\", [1, 2.5])").args()).length() > 10);
    }

    static void calls() {
        new Query("use_module(library(jpl))").hasSolution();
        // What it needs isn't loaded by itself where the packages were only unpacked.
        for (String library : new String[] {"debug", "lists", "apply", "error", "yall"}) {
            new Query("jpl:use_module(library(" + library + ")), use_module(library(" + library + "))").hasSolution();
        }
        new Query("assertz((counts(N, S) :- jpl_call('Prolog', twice, [21], N), jpl_new('java.util.ArrayList', [], A), "
                  + "jpl_call(A, add, [first], _), jpl_call(A, size, [], S)))").hasSolution();
        Query query = new Query("counts(N, S)");
        Map<String, Term> found = query.oneSolution();
        System.out.println("twice " + found.get("N") + ", size " + found.get("S") + ", called " + called);
    }

    static void fails() {
        try {
            new Query("atom_length(X, Y)").hasSolution();
        } catch (PrologException isUnbound) {
            System.out.println(isUnbound.term().arg(1));
        }
        System.out.println(new Query("grand(cid, X)").hasSolution());
    }

    public static void main(String[] words) throws Exception {
        JPL.init(new String[] {"swipl", "--no-signals", "-q", "-f", "none", "-g", "true"});
        asks();
        calls();
        fails();
        int[] sums = new int[4];
        Thread[] threads = new Thread[sums.length];
        for (int at = 0; at < threads.length; at++) {
            int which = at;
            threads[at] = new Thread(() -> {
                for (int turn = 0; turn < 25; turn++) {
                    sums[which] += sum(which + turn + 1);
                }
            });
            threads[at].start();
        }
        for (Thread thread : threads) {
            thread.join();
        }
        System.out.println(Arrays.toString(sums));
    }
}
