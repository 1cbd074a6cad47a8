// The tables that the page offers, in groups, each with what these pages say of it, and the words of engineers that
// find them. web/examples makes it from types/, docs/FORMATS.md, catalogue/ and web/examples.toml.
var Cnum = globalThis.Cnum || {};
Cnum.examples = [
 {
  "name": {
   "en": "Worked types",
   "de": "Ausgearbeitete Typen"
  },
  "types": [
   {
    "path": "types/test_and_set",
    "about": {
     "en": "A bit that is set, and answers what it was. Of two processes, who is answered 0 was first. A third does not learn which of two others was first, so the number is 2.",
     "de": "Ein Bit, das gesetzt wird und antwortet, was es war. Wer von zwei Prozessen 0 zur Antwort bekommt, war der erste. Ein dritter erfährt nicht, welcher von zwei anderen der erste war: die Zahl ist 2."
    },
    "text": "name = \"test_and_set\"\nstates = [\"zero\", \"one\"]\nresponses = [\"zero\", \"one\"]\n[[operation]]\nname = \"tas\"\nresponse = [\"zero\", \"one\"]\nnext = [\"one\", \"one\"]\n"
   },
   {
    "path": "types/idle",
    "about": {
     "en": "One state, and an operation that does nothing. Nobody learns anything, so the number is 1.",
     "de": "Ein Zustand und eine Operation, die nichts tut. Niemand erfährt etwas: die Zahl ist 1."
    },
    "text": "name = \"idle\"\nstates = [\"only\"]\nresponses = [\"ok\"]\n[[operation]]\nname = \"nop\"\nresponse = [\"ok\"]\nnext = [\"only\"]\n"
   },
   {
    "path": "types/binary_register",
    "about": {
     "en": "A bit that is written. A write wipes out what was before it and answers nothing, so the number is 1.",
     "de": "Ein Bit, das geschrieben wird. Wer schreibt, löscht aus, was vorher war, und bekommt nichts zur Antwort: die Zahl ist 1."
    },
    "text": "name = \"binary_register\"\nstates = [\"zero\", \"one\"]\nresponses = [\"ok\"]\n[[operation]]\nname = \"write0\"\nresponse = [\"ok\", \"ok\"]\nnext = [\"zero\", \"zero\"]\n[[operation]]\nname = \"write1\"\nresponse = [\"ok\", \"ok\"]\nnext = [\"one\", \"one\"]\n"
   },
   {
    "path": "types/fetch_and_add_2",
    "about": {
     "en": "A counter modulo 2, which answers what it was. Two increments from 0 are answered 0 and 1. Increments commute, so a third process does not learn who was first: the number is 2.",
     "de": "Ein Zähler modulo 2, der antwortet, was er war. Zwei Erhöhungen ab 0 bekommen 0 und 1 zur Antwort. Erhöhungen vertauschen, also erfährt ein dritter Prozess nicht, wer der erste war: die Zahl ist 2."
    },
    "text": "name = \"fetch_and_add_2\"\nstates = [\"zero\", \"one\"]\nresponses = [\"zero\", \"one\"]\n[[operation]]\nname = \"add\"\nresponse = [\"zero\", \"one\"]\nnext = [\"one\", \"zero\"]\n"
   },
   {
    "path": "types/binary_swap",
    "about": {
     "en": "A bit that is written, and answers what it was. Who is answered the old value was first. Each write wipes out what was before it, so a third process does not learn it: the number is 2.",
     "de": "Ein Bit, das geschrieben wird und antwortet, was es war. Wer den alten Wert zur Antwort bekommt, war der erste. Jedes Schreiben löscht aus, was vorher war, also erfährt es ein dritter Prozess nicht: die Zahl ist 2."
    },
    "text": "name = \"binary_swap\"\nstates = [\"zero\", \"one\"]\nresponses = [\"zero\", \"one\"]\n[[operation]]\nname = \"swap0\"\nresponse = [\"zero\", \"one\"]\nnext = [\"zero\", \"zero\"]\n[[operation]]\nname = \"swap1\"\nresponse = [\"zero\", \"one\"]\nnext = [\"one\", \"one\"]\n"
   },
   {
    "path": "types/sticky_bit",
    "about": {
     "en": "A bit that keeps the first value put in, and answers it. The first value answers every call, so any number of processes agree.",
     "de": "Ein Bit, das den ersten Wert behält und mit ihm antwortet. Der erste Wert beantwortet jeden Aufruf, also einigen sich beliebig viele Prozesse."
    },
    "text": "name = \"sticky_bit\"\nstates = [\"unset\", \"zero\", \"one\"]\nresponses = [\"zero\", \"one\"]\n[[operation]]\nname = \"put0\"\nresponse = [\"zero\", \"zero\", \"one\"]\nnext = [\"zero\", \"zero\", \"one\"]\n[[operation]]\nname = \"put1\"\nresponse = [\"one\", \"zero\", \"one\"]\nnext = [\"one\", \"zero\", \"one\"]\n"
   },
   {
    "path": "types/three_shot",
    "about": {
     "en": "Tells three times which operation was first, and then nothing more. Three processes learn which operation was first, and a fourth does not: the number is 3.",
     "de": "Sagt dreimal, welche Operation die erste war, und dann nichts mehr. Drei Prozesse erfahren es, ein vierter nicht: die Zahl ist 3."
    },
    "text": "name = \"three_shot\"\nstates = [\"bot\", \"a1\", \"a2\", \"b1\", \"b2\", \"dead\"]\nresponses = [\"a\", \"b\", \"none\"]\n[[operation]]\nname = \"x\"\nresponse = [\"a\", \"a\", \"a\", \"b\", \"b\", \"none\"]\nnext = [\"a1\", \"a2\", \"dead\", \"b2\", \"dead\", \"dead\"]\n[[operation]]\nname = \"y\"\nresponse = [\"b\", \"a\", \"a\", \"b\", \"b\", \"none\"]\nnext = [\"b1\", \"a2\", \"dead\", \"b2\", \"dead\", \"dead\"]\n"
   },
   {
    "path": "types/counter_3",
    "about": {
     "en": "A counter modulo 3, which answers what it was. Two increments from 0 are answered 0 and 1. Increments commute, so a third process does not learn who was first: the number is 2.",
     "de": "Ein Zähler modulo 3, der antwortet, was er war. Zwei Erhöhungen ab 0 bekommen 0 und 1 zur Antwort. Erhöhungen vertauschen, also erfährt ein dritter Prozess nicht, wer der erste war: die Zahl ist 2."
    },
    "text": "name = \"counter_3\"\nstates = [\"0\", \"1\", \"2\"]\nresponses = [\"0\", \"1\", \"2\"]\n[[operation]]\nname = \"inc\"\nresponse = [\"0\", \"1\", \"2\"]\nnext = [\"1\", \"2\", \"0\"]\n"
   },
   {
    "path": "types/wide",
    "about": {
     "en": "16 states and 8 operations that change nothing. It has as many states and operations as a table may have. Nobody learns who was first, so the number is 1.",
     "de": "16 Zustände und 8 Operationen, die nichts ändern: so viele, wie eine Tabelle haben darf. Niemand erfährt, wer der erste war: die Zahl ist 1."
    },
    "text": "name = \"wide\"\nstates = [\"s0\", \"s1\", \"s2\", \"s3\", \"s4\", \"s5\", \"s6\", \"s7\", \"s8\", \"s9\", \"s10\", \"s11\", \"s12\", \"s13\", \"s14\", \"s15\"]\nresponses = [\"ok\"]\n[[operation]]\nname = \"o0\"\nresponse = [\"ok\", \"ok\", \"ok\", \"ok\", \"ok\", \"ok\", \"ok\", \"ok\", \"ok\", \"ok\", \"ok\", \"ok\", \"ok\", \"ok\", \"ok\", \"ok\"]\nnext = [\"s0\", \"s1\", \"s2\", \"s3\", \"s4\", \"s5\", \"s6\", \"s7\", \"s8\", \"s9\", \"s10\", \"s11\", \"s12\", \"s13\", \"s14\", \"s15\"]\n[[operation]]\nname = \"o1\"\nresponse = [\"ok\", \"ok\", \"ok\", \"ok\", \"ok\", \"ok\", \"ok\", \"ok\", \"ok\", \"ok\", \"ok\", \"ok\", \"ok\", \"ok\", \"ok\", \"ok\"]\nnext = [\"s0\", \"s1\", \"s2\", \"s3\", \"s4\", \"s5\", \"s6\", \"s7\", \"s8\", \"s9\", \"s10\", \"s11\", \"s12\", \"s13\", \"s14\", \"s15\"]\n[[operation]]\nname = \"o2\"\nresponse = [\"ok\", \"ok\", \"ok\", \"ok\", \"ok\", \"ok\", \"ok\", \"ok\", \"ok\", \"ok\", \"ok\", \"ok\", \"ok\", \"ok\", \"ok\", \"ok\"]\nnext = [\"s0\", \"s1\", \"s2\", \"s3\", \"s4\", \"s5\", \"s6\", \"s7\", \"s8\", \"s9\", \"s10\", \"s11\", \"s12\", \"s13\", \"s14\", \"s15\"]\n[[operation]]\nname = \"o3\"\nresponse = [\"ok\", \"ok\", \"ok\", \"ok\", \"ok\", \"ok\", \"ok\", \"ok\", \"ok\", \"ok\", \"ok\", \"ok\", \"ok\", \"ok\", \"ok\", \"ok\"]\nnext = [\"s0\", \"s1\", \"s2\", \"s3\", \"s4\", \"s5\", \"s6\", \"s7\", \"s8\", \"s9\", \"s10\", \"s11\", \"s12\", \"s13\", \"s14\", \"s15\"]\n[[operation]]\nname = \"o4\"\nresponse = [\"ok\", \"ok\", \"ok\", \"ok\", \"ok\", \"ok\", \"ok\", \"ok\", \"ok\", \"ok\", \"ok\", \"ok\", \"ok\", \"ok\", \"ok\", \"ok\"]\nnext = [\"s0\", \"s1\", \"s2\", \"s3\", \"s4\", \"s5\", \"s6\", \"s7\", \"s8\", \"s9\", \"s10\", \"s11\", \"s12\", \"s13\", \"s14\", \"s15\"]\n[[operation]]\nname = \"o5\"\nresponse = [\"ok\", \"ok\", \"ok\", \"ok\", \"ok\", \"ok\", \"ok\", \"ok\", \"ok\", \"ok\", \"ok\", \"ok\", \"ok\", \"ok\", \"ok\", \"ok\"]\nnext = [\"s0\", \"s1\", \"s2\", \"s3\", \"s4\", \"s5\", \"s6\", \"s7\", \"s8\", \"s9\", \"s10\", \"s11\", \"s12\", \"s13\", \"s14\", \"s15\"]\n[[operation]]\nname = \"o6\"\nresponse = [\"ok\", \"ok\", \"ok\", \"ok\", \"ok\", \"ok\", \"ok\", \"ok\", \"ok\", \"ok\", \"ok\", \"ok\", \"ok\", \"ok\", \"ok\", \"ok\"]\nnext = [\"s0\", \"s1\", \"s2\", \"s3\", \"s4\", \"s5\", \"s6\", \"s7\", \"s8\", \"s9\", \"s10\", \"s11\", \"s12\", \"s13\", \"s14\", \"s15\"]\n[[operation]]\nname = \"o7\"\nresponse = [\"ok\", \"ok\", \"ok\", \"ok\", \"ok\", \"ok\", \"ok\", \"ok\", \"ok\", \"ok\", \"ok\", \"ok\", \"ok\", \"ok\", \"ok\", \"ok\"]\nnext = [\"s0\", \"s1\", \"s2\", \"s3\", \"s4\", \"s5\", \"s6\", \"s7\", \"s8\", \"s9\", \"s10\", \"s11\", \"s12\", \"s13\", \"s14\", \"s15\"]\n"
   }
  ]
 },
 {
  "name": {
   "en": "Number 1",
   "de": "Zahl 1"
  },
  "types": [
   {
    "path": "catalogue/register_2",
    "about": {
     "en": "A read/write register of 2 values. Literature: 1 (Herlihy 1991; Loui and Abu-Amara 1987). A write wipes out what was before it and answers nothing: a writer cannot tell whether it was alone.",
     "de": "Ein Register von 2 Werten, das gelesen und geschrieben wird. Literatur: 1 (Herlihy 1991; Loui and Abu-Amara 1987). Wer schreibt, löscht aus, was vorher war, und bekommt nichts zur Antwort: er erfährt nicht, ob er allein war."
    },
    "text": "# A read/write register of 2 values.\n# Herlihy 1991; Loui and Abu-Amara 1987.\nname = \"register_2\"\nstates = [\"0\", \"1\"]\nresponses = [\"ok\"]\n[[operation]]\nname = \"write0\"\nresponse = [\"ok\", \"ok\"]\nnext = [\"0\", \"0\"]\n[[operation]]\nname = \"write1\"\nresponse = [\"ok\", \"ok\"]\nnext = [\"1\", \"1\"]\n"
   },
   {
    "path": "catalogue/register_3",
    "about": {
     "en": "A read/write register of 3 values. Literature: 1 (Herlihy 1991; Loui and Abu-Amara 1987). A write wipes out what was before it and answers nothing: a writer cannot tell whether it was alone.",
     "de": "Ein Register von 3 Werten, das gelesen und geschrieben wird. Literatur: 1 (Herlihy 1991; Loui and Abu-Amara 1987). Wer schreibt, löscht aus, was vorher war, und bekommt nichts zur Antwort: er erfährt nicht, ob er allein war."
    },
    "text": "# A read/write register of 3 values.\n# Herlihy 1991; Loui and Abu-Amara 1987.\nname = \"register_3\"\nstates = [\"0\", \"1\", \"2\"]\nresponses = [\"ok\"]\n[[operation]]\nname = \"write0\"\nresponse = [\"ok\", \"ok\", \"ok\"]\nnext = [\"0\", \"0\", \"0\"]\n[[operation]]\nname = \"write1\"\nresponse = [\"ok\", \"ok\", \"ok\"]\nnext = [\"1\", \"1\", \"1\"]\n[[operation]]\nname = \"write2\"\nresponse = [\"ok\", \"ok\", \"ok\"]\nnext = [\"2\", \"2\", \"2\"]\n"
   },
   {
    "path": "catalogue/register_4",
    "about": {
     "en": "A read/write register of 4 values. Literature: 1 (Herlihy 1991; Loui and Abu-Amara 1987). A write wipes out what was before it and answers nothing: a writer cannot tell whether it was alone.",
     "de": "Ein Register von 4 Werten, das gelesen und geschrieben wird. Literatur: 1 (Herlihy 1991; Loui and Abu-Amara 1987). Wer schreibt, löscht aus, was vorher war, und bekommt nichts zur Antwort: er erfährt nicht, ob er allein war."
    },
    "used": [
     "x86",
     "MOV",
     "ARM with LSE",
     "LDR",
     "STR",
     "RISC-V: A and Zacas",
     "LW",
     "SW",
     "PTX and CUDA",
     "ld",
     "st",
     "Rust",
     "load",
     "store",
     "C11, C++ and POSIX",
     "atomic_load",
     "atomic_store",
     "Java",
     "get",
     "set"
    ],
    "text": "# A read/write register of 4 values.\n# Herlihy 1991; Loui and Abu-Amara 1987.\nname = \"register_4\"\nstates = [\"0\", \"1\", \"2\", \"3\"]\nresponses = [\"ok\"]\n[[operation]]\nname = \"write0\"\nresponse = [\"ok\", \"ok\", \"ok\", \"ok\"]\nnext = [\"0\", \"0\", \"0\", \"0\"]\n[[operation]]\nname = \"write1\"\nresponse = [\"ok\", \"ok\", \"ok\", \"ok\"]\nnext = [\"1\", \"1\", \"1\", \"1\"]\n[[operation]]\nname = \"write2\"\nresponse = [\"ok\", \"ok\", \"ok\", \"ok\"]\nnext = [\"2\", \"2\", \"2\", \"2\"]\n[[operation]]\nname = \"write3\"\nresponse = [\"ok\", \"ok\", \"ok\", \"ok\"]\nnext = [\"3\", \"3\", \"3\", \"3\"]\n"
   },
   {
    "path": "catalogue/register_8",
    "about": {
     "en": "A read/write register of 8 values. Literature: 1 (Herlihy 1991; Loui and Abu-Amara 1987). A write wipes out what was before it and answers nothing: a writer cannot tell whether it was alone.",
     "de": "Ein Register von 8 Werten, das gelesen und geschrieben wird. Literatur: 1 (Herlihy 1991; Loui and Abu-Amara 1987). Wer schreibt, löscht aus, was vorher war, und bekommt nichts zur Antwort: er erfährt nicht, ob er allein war."
    },
    "text": "# A read/write register of 8 values.\n# Herlihy 1991; Loui and Abu-Amara 1987.\nname = \"register_8\"\nstates = [\"0\", \"1\", \"2\", \"3\", \"4\", \"5\", \"6\", \"7\"]\nresponses = [\"ok\"]\n[[operation]]\nname = \"write0\"\nresponse = [\"ok\", \"ok\", \"ok\", \"ok\", \"ok\", \"ok\", \"ok\", \"ok\"]\nnext = [\"0\", \"0\", \"0\", \"0\", \"0\", \"0\", \"0\", \"0\"]\n[[operation]]\nname = \"write1\"\nresponse = [\"ok\", \"ok\", \"ok\", \"ok\", \"ok\", \"ok\", \"ok\", \"ok\"]\nnext = [\"1\", \"1\", \"1\", \"1\", \"1\", \"1\", \"1\", \"1\"]\n[[operation]]\nname = \"write2\"\nresponse = [\"ok\", \"ok\", \"ok\", \"ok\", \"ok\", \"ok\", \"ok\", \"ok\"]\nnext = [\"2\", \"2\", \"2\", \"2\", \"2\", \"2\", \"2\", \"2\"]\n[[operation]]\nname = \"write3\"\nresponse = [\"ok\", \"ok\", \"ok\", \"ok\", \"ok\", \"ok\", \"ok\", \"ok\"]\nnext = [\"3\", \"3\", \"3\", \"3\", \"3\", \"3\", \"3\", \"3\"]\n[[operation]]\nname = \"write4\"\nresponse = [\"ok\", \"ok\", \"ok\", \"ok\", \"ok\", \"ok\", \"ok\", \"ok\"]\nnext = [\"4\", \"4\", \"4\", \"4\", \"4\", \"4\", \"4\", \"4\"]\n[[operation]]\nname = \"write5\"\nresponse = [\"ok\", \"ok\", \"ok\", \"ok\", \"ok\", \"ok\", \"ok\", \"ok\"]\nnext = [\"5\", \"5\", \"5\", \"5\", \"5\", \"5\", \"5\", \"5\"]\n[[operation]]\nname = \"write6\"\nresponse = [\"ok\", \"ok\", \"ok\", \"ok\", \"ok\", \"ok\", \"ok\", \"ok\"]\nnext = [\"6\", \"6\", \"6\", \"6\", \"6\", \"6\", \"6\", \"6\"]\n[[operation]]\nname = \"write7\"\nresponse = [\"ok\", \"ok\", \"ok\", \"ok\", \"ok\", \"ok\", \"ok\", \"ok\"]\nnext = [\"7\", \"7\", \"7\", \"7\", \"7\", \"7\", \"7\", \"7\"]\n"
   },
   {
    "path": "catalogue/snapshot_2x2",
    "about": {
     "en": "Two registers of one bit, which are read together. Literature: 1, since it is made from registers (Afek et al. 1993). Writes to one register wipe each other out, writes to the two commute, and none answers anything.",
     "de": "Zwei Register von einem Bit, die zusammen gelesen werden. Literatur: 1, denn man kann es aus Registern bauen (Afek et al. 1993). Im selben Register löscht das spätere Schreiben das frühere aus, in verschiedenen vertauschen sie. Niemand bekommt etwas zur Antwort."
    },
    "text": "# Two registers of one bit, which are read together.\n# Snapshot object: Afek et al. 1993.\nname = \"snapshot_2x2\"\nstates = [\"c00\", \"c10\", \"c01\", \"c11\"]\nresponses = [\"ok\"]\n[[operation]]\nname = \"write0_0\"\nresponse = [\"ok\", \"ok\", \"ok\", \"ok\"]\nnext = [\"c00\", \"c00\", \"c01\", \"c01\"]\n[[operation]]\nname = \"write0_1\"\nresponse = [\"ok\", \"ok\", \"ok\", \"ok\"]\nnext = [\"c10\", \"c10\", \"c11\", \"c11\"]\n[[operation]]\nname = \"write1_0\"\nresponse = [\"ok\", \"ok\", \"ok\", \"ok\"]\nnext = [\"c00\", \"c10\", \"c00\", \"c10\"]\n[[operation]]\nname = \"write1_1\"\nresponse = [\"ok\", \"ok\", \"ok\", \"ok\"]\nnext = [\"c01\", \"c11\", \"c01\", \"c11\"]\n"
   },
   {
    "path": "catalogue/max_register_4",
    "about": {
     "en": "A register of 4 values that keeps the greatest value written. Literature: 1, since it is made from registers (Aspnes, Attiya and Censor 2009). The operations commute and answer nothing.",
     "de": "Ein Register von 4 Werten, das den größten geschriebenen Wert behält. Literatur: 1, denn man kann es aus Registern bauen (Aspnes, Attiya and Censor 2009). Je zwei Operationen vertauschen, und niemand bekommt etwas zur Antwort."
    },
    "used": [
     "ARM with LSE",
     "STUMAX",
     "PTX and CUDA",
     "red.max"
    ],
    "text": "# A register of 4 values that keeps the greatest value written.\n# Max register: Aspnes, Attiya and Censor 2009.\nname = \"max_register_4\"\nstates = [\"0\", \"1\", \"2\", \"3\"]\nresponses = [\"ok\"]\n[[operation]]\nname = \"writemax1\"\nresponse = [\"ok\", \"ok\", \"ok\", \"ok\"]\nnext = [\"1\", \"1\", \"2\", \"3\"]\n[[operation]]\nname = \"writemax2\"\nresponse = [\"ok\", \"ok\", \"ok\", \"ok\"]\nnext = [\"2\", \"2\", \"2\", \"3\"]\n[[operation]]\nname = \"writemax3\"\nresponse = [\"ok\", \"ok\", \"ok\", \"ok\"]\nnext = [\"3\", \"3\", \"3\", \"3\"]\n"
   },
   {
    "path": "catalogue/min_register_4",
    "about": {
     "en": "A register of 4 values that keeps the least value written. No publication known. The operations commute and answer nothing.",
     "de": "Ein Register von 4 Werten, das den kleinsten geschriebenen Wert behält. Keine Veröffentlichung bekannt. Je zwei Operationen vertauschen, und niemand bekommt etwas zur Antwort."
    },
    "used": [
     "ARM with LSE",
     "STUMIN",
     "PTX and CUDA",
     "red.min"
    ],
    "text": "# A register of 4 values that keeps the least value written.\n# The max register turned round; no publication known.\nname = \"min_register_4\"\nstates = [\"3\", \"2\", \"1\", \"0\"]\nresponses = [\"ok\"]\n[[operation]]\nname = \"writemin0\"\nresponse = [\"ok\", \"ok\", \"ok\", \"ok\"]\nnext = [\"0\", \"0\", \"0\", \"0\"]\n[[operation]]\nname = \"writemin1\"\nresponse = [\"ok\", \"ok\", \"ok\", \"ok\"]\nnext = [\"1\", \"1\", \"1\", \"0\"]\n[[operation]]\nname = \"writemin2\"\nresponse = [\"ok\", \"ok\", \"ok\", \"ok\"]\nnext = [\"2\", \"2\", \"1\", \"0\"]\n"
   },
   {
    "path": "catalogue/counter_read_mod4",
    "about": {
     "en": "A counter modulo 4 whose increment answers nothing. Literature: 1, since a counter is made from registers (Aspnes and Herlihy 1990). Increments commute and answer nothing.",
     "de": "Ein Zähler modulo 4, der beim Erhöhen nichts antwortet. Literatur: 1, denn man kann ihn aus Registern bauen (Aspnes and Herlihy 1990). Zwei Erhöhungen vertauschen, und niemand bekommt etwas zur Antwort."
    },
    "used": [
     "ARM with LSE",
     "STADD",
     "PTX and CUDA",
     "red.add",
     "Java",
     "LongAdder.increment"
    ],
    "text": "# A counter modulo 4 whose increment answers nothing.\n# Aspnes and Herlihy 1990.\nname = \"counter_read_mod4\"\nstates = [\"0\", \"1\", \"2\", \"3\"]\nresponses = [\"ok\"]\n[[operation]]\nname = \"inc\"\nresponse = [\"ok\", \"ok\", \"ok\", \"ok\"]\nnext = [\"1\", \"2\", \"3\", \"0\"]\n"
   },
   {
    "path": "catalogue/counter_sat_updown_silent",
    "about": {
     "en": "A counter from 0 to 3 that goes up and down, stops at its bounds and answers nothing. No publication known. Between the bounds the operations commute, and at a bound one of them does nothing: they interfere everywhere, and answer nothing.",
     "de": "Ein Zähler von 0 bis 3, der auf und ab geht, an seinen Grenzen stehen bleibt und nichts antwortet. Keine Veröffentlichung bekannt. Zwischen den Grenzen vertauschen die Operationen, und an einer Grenze tut eine von ihnen nichts."
    },
    "text": "# A counter from 0 to 3 that goes up and down, stops at its bounds and answers nothing.\n# No publication known.\nname = \"counter_sat_updown_silent\"\nstates = [\"0\", \"1\", \"2\", \"3\"]\nresponses = [\"ok\"]\n[[operation]]\nname = \"inc\"\nresponse = [\"ok\", \"ok\", \"ok\", \"ok\"]\nnext = [\"1\", \"2\", \"3\", \"3\"]\n[[operation]]\nname = \"dec\"\nresponse = [\"ok\", \"ok\", \"ok\", \"ok\"]\nnext = [\"0\", \"0\", \"1\", \"2\"]\n"
   }
  ]
 },
 {
  "name": {
   "en": "Number 2",
   "de": "Zahl 2"
  },
  "types": [
   {
    "path": "catalogue/test_and_set",
    "about": {
     "en": "A bit that is set, with the bit before as the answer. Literature: 2 (Herlihy 1991). The first call is answered 0, each later one 1; the operation commutes with itself.",
     "de": "Ein Bit, das gesetzt wird, mit dem Bit davor als Antwort. Literatur: 2 (Herlihy 1991). Der erste Aufruf bekommt 0 zur Antwort, jeder spätere 1; je zwei Aufrufe vertauschen."
    },
    "text": "# A bit that is set, with the bit before as the answer.\n# Herlihy 1991.\nname = \"test_and_set\"\nstates = [\"0\", \"1\"]\nresponses = [\"0\", \"1\"]\n[[operation]]\nname = \"tas\"\nresponse = [\"0\", \"1\"]\nnext = [\"1\", \"1\"]\n"
   },
   {
    "path": "catalogue/test_and_set_reset",
    "about": {
     "en": "Test-and-set with a reset that answers nothing. Literature: 2 by the theorem of Herlihy 1991. Each of the two operations wipes out the other.",
     "de": "Test-and-set mit einem Zurücksetzen, das nichts antwortet. Literatur: 2 nach dem Satz von Herlihy 1991. Jede der zwei Operationen löscht aus, was vorher war."
    },
    "used": [
     "C11, C++ and POSIX",
     "atomic_flag_test_and_set",
     "atomic_flag_clear"
    ],
    "text": "# Test-and-set with a reset that answers nothing.\n# Interfering operations of Herlihy 1991.\nname = \"test_and_set_reset\"\nstates = [\"0\", \"1\"]\nresponses = [\"0\", \"1\", \"ok\"]\n[[operation]]\nname = \"tas\"\nresponse = [\"0\", \"1\"]\nnext = [\"1\", \"1\"]\n[[operation]]\nname = \"reset\"\nresponse = [\"ok\", \"ok\"]\nnext = [\"0\", \"0\"]\n"
   },
   {
    "path": "catalogue/trylock_unlock",
    "about": {
     "en": "A lock that is tried without waiting and given back. Literature: 2 by the theorem of Herlihy 1991. Test-and-set with a reset: each of the two operations wipes out the other.",
     "de": "Eine Sperre, die man ohne Warten zu nehmen versucht und zurückgibt. Literatur: 2 nach dem Satz von Herlihy 1991. Es ist Test-and-set mit einem Zurücksetzen: jede der zwei Operationen löscht aus, was vorher war."
    },
    "used": [
     "Rust",
     "Mutex::try_lock",
     "C11, C++ and POSIX",
     "pthread_mutex_trylock",
     "Java",
     "tryLock",
     "unlock"
    ],
    "text": "# A lock that is tried without waiting and given back.\n# Test-and-set with reset by other names; Herlihy 1991.\nname = \"trylock_unlock\"\nstates = [\"free\", \"held\"]\nresponses = [\"yes\", \"no\", \"ok\"]\n[[operation]]\nname = \"trylock\"\nresponse = [\"yes\", \"no\"]\nnext = [\"held\", \"held\"]\n[[operation]]\nname = \"unlock\"\nresponse = [\"ok\", \"ok\"]\nnext = [\"free\", \"free\"]\n"
   },
   {
    "path": "catalogue/flip",
    "about": {
     "en": "A bit that is turned over, with the bit before as the answer. Literature: 2 by the theorem of Herlihy 1991. The first call is told from the second, and the operation commutes with itself.",
     "de": "Ein Bit, das umgekehrt wird, mit dem Bit davor als Antwort. Literatur: 2 nach dem Satz von Herlihy 1991. Der erste Aufruf bekommt eine andere Antwort als der zweite, und je zwei Aufrufe vertauschen."
    },
    "text": "# A bit that is turned over, with the bit before as the answer.\n# Fetch-and-complement: Herlihy 1991.\nname = \"flip\"\nstates = [\"0\", \"1\"]\nresponses = [\"0\", \"1\"]\n[[operation]]\nname = \"flip\"\nresponse = [\"0\", \"1\"]\nnext = [\"1\", \"0\"]\n"
   },
   {
    "path": "catalogue/rmw_bit",
    "about": {
     "en": "A bit with all four ways to read it and change it at once. Literature: 2 (Loui and Abu-Amara 1987). On two states any two operations interfere.",
     "de": "Ein Bit mit allen vier Arten, es in einem Schritt zu lesen und zu ändern. Literatur: 2 (Loui and Abu-Amara 1987). Mit zwei Zuständen vertauschen je zwei Operationen, oder eine löscht die andere aus."
    },
    "text": "# A bit with all four ways to read it and change it at once.\n# Loui and Abu-Amara 1987.\nname = \"rmw_bit\"\nstates = [\"0\", \"1\"]\nresponses = [\"0\", \"1\"]\n[[operation]]\nname = \"read\"\nresponse = [\"0\", \"1\"]\nnext = [\"0\", \"1\"]\n[[operation]]\nname = \"set\"\nresponse = [\"0\", \"1\"]\nnext = [\"1\", \"1\"]\n[[operation]]\nname = \"clear\"\nresponse = [\"0\", \"1\"]\nnext = [\"0\", \"0\"]\n[[operation]]\nname = \"flip\"\nresponse = [\"0\", \"1\"]\nnext = [\"1\", \"0\"]\n"
   },
   {
    "path": "catalogue/swap_2",
    "about": {
     "en": "A register of 2 values whose write answers with the value before it. Literature: 2 (Herlihy 1991). From 0, two calls of swap1 are answered 0 and 1; each operation wipes out what was before it.",
     "de": "Ein Register von 2 Werten, dessen Schreiben mit dem Wert davor antwortet. Literatur: 2 (Herlihy 1991). Ab 0 bekommen zwei Aufrufe von swap1 die Antworten 0 und 1; jede Operation löscht aus, was vorher war."
    },
    "text": "# A register of 2 values whose write answers with the value before it.\n# Swap: Herlihy 1991.\nname = \"swap_2\"\nstates = [\"0\", \"1\"]\nresponses = [\"0\", \"1\"]\n[[operation]]\nname = \"swap0\"\nresponse = [\"0\", \"1\"]\nnext = [\"0\", \"0\"]\n[[operation]]\nname = \"swap1\"\nresponse = [\"0\", \"1\"]\nnext = [\"1\", \"1\"]\n"
   },
   {
    "path": "catalogue/swap_3",
    "about": {
     "en": "A register of 3 values whose write answers with the value before it. Literature: 2 (Herlihy 1991). From 0, two calls of swap1 are answered 0 and 1; each operation wipes out what was before it.",
     "de": "Ein Register von 3 Werten, dessen Schreiben mit dem Wert davor antwortet. Literatur: 2 (Herlihy 1991). Ab 0 bekommen zwei Aufrufe von swap1 die Antworten 0 und 1; jede Operation löscht aus, was vorher war."
    },
    "text": "# A register of 3 values whose write answers with the value before it.\n# Swap: Herlihy 1991.\nname = \"swap_3\"\nstates = [\"0\", \"1\", \"2\"]\nresponses = [\"0\", \"1\", \"2\"]\n[[operation]]\nname = \"swap0\"\nresponse = [\"0\", \"1\", \"2\"]\nnext = [\"0\", \"0\", \"0\"]\n[[operation]]\nname = \"swap1\"\nresponse = [\"0\", \"1\", \"2\"]\nnext = [\"1\", \"1\", \"1\"]\n[[operation]]\nname = \"swap2\"\nresponse = [\"0\", \"1\", \"2\"]\nnext = [\"2\", \"2\", \"2\"]\n"
   },
   {
    "path": "catalogue/swap_4",
    "about": {
     "en": "A register of 4 values whose write answers with the value before it. Literature: 2 (Herlihy 1991). From 0, two calls of swap1 are answered 0 and 1; each operation wipes out what was before it.",
     "de": "Ein Register von 4 Werten, dessen Schreiben mit dem Wert davor antwortet. Literatur: 2 (Herlihy 1991). Ab 0 bekommen zwei Aufrufe von swap1 die Antworten 0 und 1; jede Operation löscht aus, was vorher war."
    },
    "used": [
     "x86",
     "XCHG",
     "ARM with LSE",
     "SWP",
     "RISC-V: A and Zacas",
     "AMOSWAP",
     "PTX and CUDA",
     "atom.exch",
     "atomicExch",
     "Rust",
     "swap",
     "C11, C++ and POSIX",
     "atomic_exchange",
     "Java",
     "getAndSet"
    ],
    "text": "# A register of 4 values whose write answers with the value before it.\n# Swap: Herlihy 1991.\nname = \"swap_4\"\nstates = [\"0\", \"1\", \"2\", \"3\"]\nresponses = [\"0\", \"1\", \"2\", \"3\"]\n[[operation]]\nname = \"swap0\"\nresponse = [\"0\", \"1\", \"2\", \"3\"]\nnext = [\"0\", \"0\", \"0\", \"0\"]\n[[operation]]\nname = \"swap1\"\nresponse = [\"0\", \"1\", \"2\", \"3\"]\nnext = [\"1\", \"1\", \"1\", \"1\"]\n[[operation]]\nname = \"swap2\"\nresponse = [\"0\", \"1\", \"2\", \"3\"]\nnext = [\"2\", \"2\", \"2\", \"2\"]\n[[operation]]\nname = \"swap3\"\nresponse = [\"0\", \"1\", \"2\", \"3\"]\nnext = [\"3\", \"3\", \"3\", \"3\"]\n"
   },
   {
    "path": "catalogue/fetch_inc_sat3",
    "about": {
     "en": "A counter from 0 to 3 that stops at 3 and answers with the count before. Literature: 2 by the theorem of Herlihy 1991. The operation commutes with itself; from 0 two calls are answered 0 and 1.",
     "de": "Ein Zähler von 0 bis 3, der bei 3 stehen bleibt und mit dem Stand davor antwortet. Literatur: 2 nach dem Satz von Herlihy 1991. Zwei Aufrufe ab 0 bekommen 0 und 1 zur Antwort; sie vertauschen."
    },
    "text": "# A counter from 0 to 3 that stops at 3 and answers with the count before.\n# Fetch-and-increment with a bound: a read-modify-write as in Herlihy 1991.\nname = \"fetch_inc_sat3\"\nstates = [\"0\", \"1\", \"2\", \"3\"]\nresponses = [\"0\", \"1\", \"2\", \"3\"]\n[[operation]]\nname = \"fetch_inc\"\nresponse = [\"0\", \"1\", \"2\", \"3\"]\nnext = [\"1\", \"2\", \"3\", \"3\"]\n"
   },
   {
    "path": "catalogue/wrapping_add_1_2",
    "about": {
     "en": "A counter from 0 to 3 to which 1 or 2 is added, modulo 4, with the count before as the answer. Literature: 2 (Herlihy 1991). Additions commute. Two calls of add1 from 0 are answered 0 and 1.",
     "de": "Ein Zähler von 0 bis 3, zu dem 1 oder 2 addiert wird, modulo 4, mit dem Stand davor als Antwort. Literatur: 2 (Herlihy 1991). Additionen vertauschen. Zwei Aufrufe von add1 ab 0 bekommen 0 und 1 zur Antwort."
    },
    "used": [
     "Rust",
     "fetch_add",
     "fetch_sub",
     "C11, C++ and POSIX",
     "atomic_fetch_add",
     "atomic_fetch_sub",
     "Java",
     "getAndAdd",
     "incrementAndGet"
    ],
    "text": "# A counter from 0 to 3 to which 1 or 2 is added, modulo 4, with the count before as the answer.\n# fetch_add of Rust and C11, getAndAdd of Java: fetch-and-add of Herlihy 1991.\nname = \"wrapping_add_1_2\"\nstates = [\"0\", \"1\", \"2\", \"3\"]\nresponses = [\"0\", \"1\", \"2\", \"3\"]\n[[operation]]\nname = \"add1\"\nresponse = [\"0\", \"1\", \"2\", \"3\"]\nnext = [\"1\", \"2\", \"3\", \"0\"]\n[[operation]]\nname = \"add2\"\nresponse = [\"0\", \"1\", \"2\", \"3\"]\nnext = [\"2\", \"3\", \"0\", \"1\"]\n"
   },
   {
    "path": "catalogue/saturating_add_1_2",
    "about": {
     "en": "A counter from 0 to 3 to which 1 or 2 is added up to 3, with the count before as the answer. Literature: 2 by the theorem of Herlihy 1991. Additions that stop at 3 commute. Two calls of add1 from 0 are answered 0 and 1.",
     "de": "Ein Zähler von 0 bis 3, zu dem bis 3 hin 1 oder 2 addiert wird, mit dem Stand davor als Antwort. Literatur: 2 nach dem Satz von Herlihy 1991. Additionen, die bei 3 enden, vertauschen. Zwei Aufrufe von add1 ab 0 bekommen 0 und 1 zur Antwort."
    },
    "used": [
     "Rust",
     "fetch_update",
     "saturating_add"
    ],
    "text": "# A counter from 0 to 3 to which 1 or 2 is added up to 3, with the count before as the answer.\n# saturating_add of Rust in one step: interfering operations of Herlihy 1991.\nname = \"saturating_add_1_2\"\nstates = [\"0\", \"1\", \"2\", \"3\"]\nresponses = [\"0\", \"1\", \"2\", \"3\"]\n[[operation]]\nname = \"add1\"\nresponse = [\"0\", \"1\", \"2\", \"3\"]\nnext = [\"1\", \"2\", \"3\", \"3\"]\n[[operation]]\nname = \"add2\"\nresponse = [\"0\", \"1\", \"2\", \"3\"]\nnext = [\"2\", \"3\", \"3\", \"3\"]\n"
   },
   {
    "path": "catalogue/checked_add_1",
    "about": {
     "en": "A counter from 0 to 3 to which 1 is added if it fits, with the count before as the answer, or err. Literature: 2 by the theorem of Herlihy 1991. The operation commutes with itself; two calls from 0 are answered 0 and 1. With an addition of 2 beside it there is no greatest number: checked_add_1_2.",
     "de": "Ein Zähler von 0 bis 3, zu dem 1 addiert wird, wenn es passt, mit dem Stand davor oder err als Antwort. Literatur: 2 nach dem Satz von Herlihy 1991. Zwei Aufrufe ab 0 bekommen 0 und 1 zur Antwort; sie vertauschen. Mit einer Addition von 2 daneben gibt es keine größte Zahl: checked_add_1_2."
    },
    "text": "# A counter from 0 to 3 to which 1 is added if it fits, with the count before as the answer, or err.\n# checked_add of Rust in one step: a read-modify-write as in Herlihy 1991.\nname = \"checked_add_1\"\nstates = [\"0\", \"1\", \"2\", \"3\"]\nresponses = [\"0\", \"1\", \"2\", \"err\"]\n[[operation]]\nname = \"add1\"\nresponse = [\"0\", \"1\", \"2\", \"err\"]\nnext = [\"1\", \"2\", \"3\", \"3\"]\n"
   },
   {
    "path": "catalogue/fetch_inc_write",
    "about": {
     "en": "A counter modulo 4 with an increment that answers with the count before it, and a reset that answers nothing. Literature: 2 by the theorem of Herlihy 1991. The reset wipes out increments, and increments commute.",
     "de": "Ein Zähler modulo 4 mit einem Erhöhen, das mit dem Stand davor antwortet, und einem Zurücksetzen, das nichts antwortet. Literatur: 2 nach dem Satz von Herlihy 1991. Das Zurücksetzen löscht Erhöhungen aus, und Erhöhungen vertauschen."
    },
    "text": "# A counter modulo 4 with an increment that answers with the count before it, and a reset that answers nothing.\n# Fetch-and-add with a write: interfering operations of Herlihy 1991.\nname = \"fetch_inc_write\"\nstates = [\"0\", \"1\", \"2\", \"3\"]\nresponses = [\"0\", \"1\", \"2\", \"3\", \"ok\"]\n[[operation]]\nname = \"fetch_inc\"\nresponse = [\"0\", \"1\", \"2\", \"3\"]\nnext = [\"1\", \"2\", \"3\", \"0\"]\n[[operation]]\nname = \"write0\"\nresponse = [\"ok\", \"ok\", \"ok\", \"ok\"]\nnext = [\"0\", \"0\", \"0\", \"0\"]\n"
   },
   {
    "path": "catalogue/fetch_updown_sat",
    "about": {
     "en": "A counter from 0 to 3 that goes up and down, stops at its bounds and answers with the count before. Literature: 2 by the theorem of Herlihy 1991. The operations commute between the bounds; at a bound one of them does nothing, so they interfere there too.",
     "de": "Ein Zähler von 0 bis 3, der auf und ab geht, an seinen Grenzen stehen bleibt und mit dem Stand davor antwortet. Literatur: 2 nach dem Satz von Herlihy 1991. Zwischen den Grenzen vertauschen die Operationen, und an einer Grenze tut eine von ihnen nichts."
    },
    "text": "# A counter from 0 to 3 that goes up and down, stops at its bounds and answers with the count before.\n# Interfering operations of Herlihy 1991.\nname = \"fetch_updown_sat\"\nstates = [\"0\", \"1\", \"2\", \"3\"]\nresponses = [\"0\", \"1\", \"2\", \"3\"]\n[[operation]]\nname = \"fetch_inc\"\nresponse = [\"0\", \"1\", \"2\", \"3\"]\nnext = [\"1\", \"2\", \"3\", \"3\"]\n[[operation]]\nname = \"fetch_dec\"\nresponse = [\"0\", \"1\", \"2\", \"3\"]\nnext = [\"0\", \"0\", \"1\", \"2\"]\n"
   },
   {
    "path": "catalogue/counter_dec_sat",
    "about": {
     "en": "A counter from 0 to 3 that stops at its bounds: a silent increment, and a decrement that answers with the count before it. Literature: 2 by the theorem of Herlihy 1991. The operations commute between the bounds, and at a bound one of them does nothing: they interfere. From 1 two decrements are answered 1 and 0.",
     "de": "Ein Zähler von 0 bis 3, der an seinen Grenzen stehen bleibt: ein stilles Erhöhen, und ein Vermindern, das mit dem Stand davor antwortet. Literatur: 2 nach dem Satz von Herlihy 1991. Zwischen den Grenzen vertauschen die Operationen, und an einer Grenze tut eine von ihnen nichts. Ab 1 bekommen zwei Verminderungen 1 und 0 zur Antwort."
    },
    "text": "# A counter from 0 to 3 that stops at its bounds: a silent increment, and a decrement that answers with the count before it.\n# Interfering operations of Herlihy 1991.\nname = \"counter_dec_sat\"\nstates = [\"0\", \"1\", \"2\", \"3\"]\nresponses = [\"ok\", \"0\", \"1\", \"2\", \"3\"]\n[[operation]]\nname = \"inc\"\nresponse = [\"ok\", \"ok\", \"ok\", \"ok\"]\nnext = [\"1\", \"2\", \"3\", \"3\"]\n[[operation]]\nname = \"fetch_dec\"\nresponse = [\"0\", \"1\", \"2\", \"3\"]\nnext = [\"0\", \"0\", \"1\", \"2\"]\n"
   },
   {
    "path": "catalogue/fetch_or_2bit",
    "about": {
     "en": "Two bits, of which some are set at once, with the bits before as the answer. Literature: 2 by the theorem of Herlihy 1991. The operations commute.",
     "de": "Zwei Bits, von denen einige in einem Schritt gesetzt werden, mit den Bits davor als Antwort. Literatur: 2 nach dem Satz von Herlihy 1991. Je zwei Operationen vertauschen."
    },
    "used": [
     "ARM with LSE",
     "LDSET",
     "RISC-V: A and Zacas",
     "AMOOR",
     "PTX and CUDA",
     "atom.or",
     "atomicOr",
     "Rust",
     "fetch_or",
     "C11, C++ and POSIX",
     "atomic_fetch_or",
     "Java",
     "getAndBitwiseOr"
    ],
    "text": "# Two bits, of which some are set at once, with the bits before as the answer.\n# Fetch-and-or, operations that commute: Herlihy 1991.\nname = \"fetch_or_2bit\"\nstates = [\"b00\", \"b01\", \"b10\", \"b11\"]\nresponses = [\"b00\", \"b01\", \"b10\", \"b11\"]\n[[operation]]\nname = \"or01\"\nresponse = [\"b00\", \"b01\", \"b10\", \"b11\"]\nnext = [\"b01\", \"b01\", \"b11\", \"b11\"]\n[[operation]]\nname = \"or10\"\nresponse = [\"b00\", \"b01\", \"b10\", \"b11\"]\nnext = [\"b10\", \"b11\", \"b10\", \"b11\"]\n[[operation]]\nname = \"or11\"\nresponse = [\"b00\", \"b01\", \"b10\", \"b11\"]\nnext = [\"b11\", \"b11\", \"b11\", \"b11\"]\n"
   },
   {
    "path": "catalogue/fetch_and_2bit",
    "about": {
     "en": "Two bits, of which some are cleared at once, with the bits before as the answer. Literature: 2 by the theorem of Herlihy 1991. The operations commute.",
     "de": "Zwei Bits, von denen einige in einem Schritt gelöscht werden, mit den Bits davor als Antwort. Literatur: 2 nach dem Satz von Herlihy 1991. Je zwei Operationen vertauschen."
    },
    "used": [
     "ARM with LSE",
     "LDCLR",
     "RISC-V: A and Zacas",
     "AMOAND",
     "PTX and CUDA",
     "atom.and",
     "atomicAnd",
     "Rust",
     "fetch_and",
     "C11, C++ and POSIX",
     "atomic_fetch_and",
     "Java",
     "getAndBitwiseAnd"
    ],
    "text": "# Two bits, of which some are cleared at once, with the bits before as the answer.\n# Fetch-and-and, operations that commute: Herlihy 1991.\nname = \"fetch_and_2bit\"\nstates = [\"b11\", \"b10\", \"b01\", \"b00\"]\nresponses = [\"b11\", \"b10\", \"b01\", \"b00\"]\n[[operation]]\nname = \"and00\"\nresponse = [\"b11\", \"b10\", \"b01\", \"b00\"]\nnext = [\"b00\", \"b00\", \"b00\", \"b00\"]\n[[operation]]\nname = \"and01\"\nresponse = [\"b11\", \"b10\", \"b01\", \"b00\"]\nnext = [\"b01\", \"b00\", \"b01\", \"b00\"]\n[[operation]]\nname = \"and10\"\nresponse = [\"b11\", \"b10\", \"b01\", \"b00\"]\nnext = [\"b10\", \"b10\", \"b00\", \"b00\"]\n"
   },
   {
    "path": "catalogue/fetch_xor_2bit",
    "about": {
     "en": "Two bits, of which some are turned over at once, with the bits before as the answer. Literature: 2 by the theorem of Herlihy 1991. The operations commute.",
     "de": "Zwei Bits, von denen einige in einem Schritt umgekehrt werden, mit den Bits davor als Antwort. Literatur: 2 nach dem Satz von Herlihy 1991. Je zwei Operationen vertauschen."
    },
    "used": [
     "ARM with LSE",
     "LDEOR",
     "RISC-V: A and Zacas",
     "AMOXOR",
     "PTX and CUDA",
     "atom.xor",
     "atomicXor",
     "Rust",
     "fetch_xor",
     "C11, C++ and POSIX",
     "atomic_fetch_xor",
     "Java",
     "getAndBitwiseXor"
    ],
    "text": "# Two bits, of which some are turned over at once, with the bits before as the answer.\n# Fetch-and-xor, operations that commute: Herlihy 1991.\nname = \"fetch_xor_2bit\"\nstates = [\"b00\", \"b01\", \"b10\", \"b11\"]\nresponses = [\"b00\", \"b01\", \"b10\", \"b11\"]\n[[operation]]\nname = \"xor01\"\nresponse = [\"b00\", \"b01\", \"b10\", \"b11\"]\nnext = [\"b01\", \"b00\", \"b11\", \"b10\"]\n[[operation]]\nname = \"xor10\"\nresponse = [\"b00\", \"b01\", \"b10\", \"b11\"]\nnext = [\"b10\", \"b11\", \"b00\", \"b01\"]\n[[operation]]\nname = \"xor11\"\nresponse = [\"b00\", \"b01\", \"b10\", \"b11\"]\nnext = [\"b11\", \"b10\", \"b01\", \"b00\"]\n"
   },
   {
    "path": "catalogue/fetch_or_and_2bit",
    "about": {
     "en": "Two bits, of which some are set, or some cleared, with the bits before as the answer. Literature: 2 by the theorem of Herlihy 1991. A mask of two bits that touches both wipes out every other; two that touch one bit each commute, or the later one wipes out the earlier.",
     "de": "Zwei Bits, von denen einige gesetzt oder einige gelöscht werden, mit den Bits davor als Antwort. Literatur: 2 nach dem Satz von Herlihy 1991. Eine Operation auf beiden Bits löscht jede andere aus. Zwei auf je einem Bit vertauschen, oder die spätere löscht die frühere aus."
    },
    "text": "# Two bits, of which some are set, or some cleared, with the bits before as the answer.\n# Interfering operations of Herlihy 1991.\nname = \"fetch_or_and_2bit\"\nstates = [\"b00\", \"b01\", \"b10\", \"b11\"]\nresponses = [\"b00\", \"b01\", \"b10\", \"b11\"]\n[[operation]]\nname = \"or01\"\nresponse = [\"b00\", \"b01\", \"b10\", \"b11\"]\nnext = [\"b01\", \"b01\", \"b11\", \"b11\"]\n[[operation]]\nname = \"or10\"\nresponse = [\"b00\", \"b01\", \"b10\", \"b11\"]\nnext = [\"b10\", \"b11\", \"b10\", \"b11\"]\n[[operation]]\nname = \"or11\"\nresponse = [\"b00\", \"b01\", \"b10\", \"b11\"]\nnext = [\"b11\", \"b11\", \"b11\", \"b11\"]\n[[operation]]\nname = \"and00\"\nresponse = [\"b00\", \"b01\", \"b10\", \"b11\"]\nnext = [\"b00\", \"b00\", \"b00\", \"b00\"]\n[[operation]]\nname = \"and01\"\nresponse = [\"b00\", \"b01\", \"b10\", \"b11\"]\nnext = [\"b00\", \"b01\", \"b00\", \"b01\"]\n[[operation]]\nname = \"and10\"\nresponse = [\"b00\", \"b01\", \"b10\", \"b11\"]\nnext = [\"b00\", \"b00\", \"b10\", \"b10\"]\n"
   },
   {
    "path": "catalogue/fetch_max_4",
    "about": {
     "en": "A register of 4 values that keeps the greater of its value and one given, with the value before as the answer. Literature: 2 by the theorem of Herlihy 1991. The operations commute. Two calls of fetch_max1 from 0 are answered 0 and 1.",
     "de": "Ein Register von 4 Werten, das den größeren von seinem und dem gegebenen Wert behält, mit dem Wert davor als Antwort. Literatur: 2 nach dem Satz von Herlihy 1991. Je zwei Operationen vertauschen. Zwei Aufrufe von fetch_max1 ab 0 bekommen 0 und 1 zur Antwort."
    },
    "used": [
     "ARM with LSE",
     "LDUMAX",
     "LDSMAX",
     "RISC-V: A and Zacas",
     "AMOMAX",
     "AMOMAXU",
     "PTX and CUDA",
     "atom.max",
     "atomicMax",
     "Rust",
     "fetch_max"
    ],
    "text": "# A register of 4 values that keeps the greater of its value and one given, with the value before as the answer.\n# fetch_max of Rust, atomicMax of CUDA, AMOMAX of RISC-V: operations that commute, Herlihy 1991.\nname = \"fetch_max_4\"\nstates = [\"0\", \"1\", \"2\", \"3\"]\nresponses = [\"0\", \"1\", \"2\", \"3\"]\n[[operation]]\nname = \"fetch_max1\"\nresponse = [\"0\", \"1\", \"2\", \"3\"]\nnext = [\"1\", \"1\", \"2\", \"3\"]\n[[operation]]\nname = \"fetch_max2\"\nresponse = [\"0\", \"1\", \"2\", \"3\"]\nnext = [\"2\", \"2\", \"2\", \"3\"]\n[[operation]]\nname = \"fetch_max3\"\nresponse = [\"0\", \"1\", \"2\", \"3\"]\nnext = [\"3\", \"3\", \"3\", \"3\"]\n"
   },
   {
    "path": "catalogue/fetch_min_4",
    "about": {
     "en": "A register of 4 values that keeps the lesser of its value and one given, with the value before as the answer. Literature: 2 by the theorem of Herlihy 1991. The operations commute. Two calls of fetch_min0 from 3 are answered 3 and 0.",
     "de": "Ein Register von 4 Werten, das den kleineren von seinem und dem gegebenen Wert behält, mit dem Wert davor als Antwort. Literatur: 2 nach dem Satz von Herlihy 1991. Je zwei Operationen vertauschen. Zwei Aufrufe von fetch_min0 ab 3 bekommen 3 und 0 zur Antwort."
    },
    "used": [
     "ARM with LSE",
     "LDUMIN",
     "LDSMIN",
     "RISC-V: A and Zacas",
     "AMOMIN",
     "AMOMINU",
     "PTX and CUDA",
     "atom.min",
     "atomicMin",
     "Rust",
     "fetch_min"
    ],
    "text": "# A register of 4 values that keeps the lesser of its value and one given, with the value before as the answer.\n# fetch_min of Rust, atomicMin of CUDA, AMOMIN of RISC-V: operations that commute, Herlihy 1991.\nname = \"fetch_min_4\"\nstates = [\"3\", \"2\", \"1\", \"0\"]\nresponses = [\"3\", \"2\", \"1\", \"0\"]\n[[operation]]\nname = \"fetch_min0\"\nresponse = [\"3\", \"2\", \"1\", \"0\"]\nnext = [\"0\", \"0\", \"0\", \"0\"]\n[[operation]]\nname = \"fetch_min1\"\nresponse = [\"3\", \"2\", \"1\", \"0\"]\nnext = [\"1\", \"1\", \"1\", \"0\"]\n[[operation]]\nname = \"fetch_min2\"\nresponse = [\"3\", \"2\", \"1\", \"0\"]\nnext = [\"2\", \"2\", \"1\", \"0\"]\n"
   },
   {
    "path": "catalogue/set_add_remove_1",
    "about": {
     "en": "A set over one key, whose operations tell whether they changed it. Literature: at least 2 for sets (Herlihy 1991). Of two who add, the first is answered yes; on two states any two operations interfere.",
     "de": "Eine Menge über einem Schlüssel, deren Operationen sagen, ob sie sie geändert haben. Literatur: mindestens 2 für Mengen (Herlihy 1991). Von zweien, die hinzufügen, bekommt der erste yes zur Antwort. Mit zwei Zuständen vertauschen je zwei Operationen, oder eine löscht die andere aus."
    },
    "text": "# A set over one key, whose operations tell whether they changed it.\n# Sets: Herlihy 1991.\nname = \"set_add_remove_1\"\nstates = [\"empty\", \"has\"]\nresponses = [\"yes\", \"no\"]\n[[operation]]\nname = \"add\"\nresponse = [\"yes\", \"no\"]\nnext = [\"has\", \"has\"]\n[[operation]]\nname = \"remove\"\nresponse = [\"no\", \"yes\"]\nnext = [\"empty\", \"empty\"]\n"
   },
   {
    "path": "catalogue/set_add_remove_2",
    "about": {
     "en": "A set over two keys, whose operations tell whether they changed it. Literature: at least 2 for sets (Herlihy 1991). Operations on one key wipe each other out, those on two keys commute.",
     "de": "Eine Menge über zwei Schlüsseln, deren Operationen sagen, ob sie sie geändert haben. Literatur: mindestens 2 für Mengen (Herlihy 1991). Auf einem Schlüssel löscht die spätere Operation die frühere aus, auf zwei Schlüsseln vertauschen sie."
    },
    "text": "# A set over two keys, whose operations tell whether they changed it.\n# Sets: Herlihy 1991.\nname = \"set_add_remove_2\"\nstates = [\"b00\", \"b01\", \"b10\", \"b11\"]\nresponses = [\"yes\", \"no\"]\n[[operation]]\nname = \"add_x\"\nresponse = [\"yes\", \"no\", \"yes\", \"no\"]\nnext = [\"b01\", \"b01\", \"b11\", \"b11\"]\n[[operation]]\nname = \"remove_x\"\nresponse = [\"no\", \"yes\", \"no\", \"yes\"]\nnext = [\"b00\", \"b00\", \"b10\", \"b10\"]\n[[operation]]\nname = \"add_y\"\nresponse = [\"yes\", \"yes\", \"no\", \"no\"]\nnext = [\"b10\", \"b11\", \"b10\", \"b11\"]\n[[operation]]\nname = \"remove_y\"\nresponse = [\"no\", \"no\", \"yes\", \"yes\"]\nnext = [\"b00\", \"b01\", \"b00\", \"b01\"]\n"
   },
   {
    "path": "catalogue/deq_only_queue_3",
    "about": {
     "en": "A queue that starts with three items, from which one only takes. Literature: 2 (Herlihy 1991). Who takes the first item was first; the operation commutes with itself.",
     "de": "Eine Warteschlange, die mit drei Einträgen beginnt und aus der man nur nimmt. Literatur: 2 (Herlihy 1991). Wer den ersten Eintrag nimmt, war der erste; je zwei Aufrufe vertauschen."
    },
    "text": "# A queue that starts with three items, from which one only takes.\n# The protocol for two processes and a queue: Herlihy 1991.\nname = \"deq_only_queue_3\"\nstates = [\"3\", \"2\", \"1\", \"0\"]\nresponses = [\"item3\", \"item2\", \"item1\", \"empty\"]\n[[operation]]\nname = \"deq\"\nresponse = [\"item3\", \"item2\", \"item1\", \"empty\"]\nnext = [\"2\", \"1\", \"0\", \"0\"]\n"
   },
   {
    "path": "catalogue/assign_2",
    "about": {
     "en": "Three registers; each of two operations writes its own and the common one at once. Literature: 2: assignment to m registers has 2m-2, for m from 2 on (Herlihy 1991). After both have moved, the common register is that of the later one. Of three, two do the same operation. In two teams nobody sees their order. In one team the second hides whether the first had moved before the third. Without a read nothing is answered; the literature's registers are read, and one by one that is enough for 2.",
     "de": "Drei Register; jede von zwei Operationen schreibt in einem Schritt ihr eigenes und das gemeinsame. Literatur: 2, denn für die Zuweisung an m Register ist die Zahl 2m-2, ab m = 2 (Herlihy 1991). Nach beiden steht im gemeinsamen Register die spätere. Von dreien tun zwei dasselbe. Ohne Lesen bekommt niemand etwas zur Antwort; in der Literatur werden die Register gelesen."
    },
    "text": "# Three registers; each of two operations writes its own and the common one at once.\n# Assignment to 2 registers: Herlihy 1991.\nname = \"assign_2\"\nstates = [\"00n\", \"100\", \"011\", \"111\", \"110\"]\nresponses = [\"ok\"]\n[[operation]]\nname = \"assign_p\"\nresponse = [\"ok\", \"ok\", \"ok\", \"ok\", \"ok\"]\nnext = [\"100\", \"100\", \"110\", \"110\", \"110\"]\n[[operation]]\nname = \"assign_q\"\nresponse = [\"ok\", \"ok\", \"ok\", \"ok\", \"ok\"]\nnext = [\"011\", \"111\", \"011\", \"111\", \"111\"]\n"
   },
   {
    "path": "catalogue/memory_swap_3",
    "about": {
     "en": "Three bits of a memory, of which two change places. Literature: infinite for a memory that has a cell for each process (Herlihy 1991). Here three bits are all there is. From 001 two can tell by where the 1 went. For three, one operation at least changes nothing (two bits are equal), or two processes do the same. In one team the second undoes the first. In two teams nobody sees their order. With more cells: memory_swap_own. Without a read nothing is answered; the literature's memory is read.",
     "de": "Drei Bits eines Speichers, von denen zwei die Plätze tauschen. Literatur: unendlich für einen Speicher mit einer Zelle für jeden Prozess (Herlihy 1991). Hier gibt es nur drei Bits. Ab 001 erkennen zwei Prozesse am Ort der 1, wer der erste war, drei nicht. Mit mehr Zellen: memory_swap_own. Ohne Lesen bekommt niemand etwas zur Antwort."
    },
    "text": "# Three bits of a memory, of which two change places.\n# Memory-to-memory swap: Herlihy 1991.\nname = \"memory_swap_3\"\nstates = [\"m000\", \"m001\", \"m010\", \"m011\", \"m100\", \"m101\", \"m110\", \"m111\"]\nresponses = [\"ok\"]\n[[operation]]\nname = \"swap_0_1\"\nresponse = [\"ok\", \"ok\", \"ok\", \"ok\", \"ok\", \"ok\", \"ok\", \"ok\"]\nnext = [\"m000\", \"m001\", \"m100\", \"m101\", \"m010\", \"m011\", \"m110\", \"m111\"]\n[[operation]]\nname = \"swap_1_2\"\nresponse = [\"ok\", \"ok\", \"ok\", \"ok\", \"ok\", \"ok\", \"ok\", \"ok\"]\nnext = [\"m000\", \"m010\", \"m001\", \"m011\", \"m100\", \"m110\", \"m101\", \"m111\"]\n[[operation]]\nname = \"swap_0_2\"\nresponse = [\"ok\", \"ok\", \"ok\", \"ok\", \"ok\", \"ok\", \"ok\", \"ok\"]\nnext = [\"m000\", \"m100\", \"m010\", \"m110\", \"m001\", \"m101\", \"m011\", \"m111\"]\n"
   },
   {
    "path": "catalogue/semaphore_3",
    "about": {
     "en": "A semaphore of 3 units: one is given back, or taken without waiting, with whether there was one as the answer. Literature: 2 by the theorem of Herlihy 1991. The operations commute between the bounds, and at a bound one of them does nothing: they interfere. From 1, of two who do down, only the first gets the unit.",
     "de": "Ein Semaphor mit 3 Einheiten: eine wird zurückgegeben oder ohne Warten genommen, und die Antwort sagt, ob es eine gab. Literatur: 2 nach dem Satz von Herlihy 1991. Zwischen den Grenzen vertauschen die Operationen, und an einer Grenze tut eine von ihnen nichts. Ab 1 bekommt von zweien nur der erste die Einheit."
    },
    "used": [
     "C11, C++ and POSIX",
     "sem_trywait",
     "sem_post",
     "Java",
     "tryAcquire()",
     "release()",
     "Semaphore"
    ],
    "text": "# A semaphore of 3 units: one is given back, or taken without waiting, with whether there was one as the answer.\n# Interfering operations of Herlihy 1991.\nname = \"semaphore_3\"\nstates = [\"0\", \"1\", \"2\", \"3\"]\nresponses = [\"ok\", \"no\", \"yes\"]\n[[operation]]\nname = \"up\"\nresponse = [\"ok\", \"ok\", \"ok\", \"ok\"]\nnext = [\"1\", \"2\", \"3\", \"3\"]\n[[operation]]\nname = \"down\"\nresponse = [\"no\", \"yes\", \"yes\", \"yes\"]\nnext = [\"0\", \"0\", \"1\", \"2\"]\n"
   },
   {
    "path": "catalogue/mailbox_latest",
    "about": {
     "en": "A mailbox for one of two letters, in which a letter takes the place of the one before it. Literature: 2 by the theorem of Herlihy 1991. Each operation wipes out what was before it. Of two who take the only letter, the first is answered it, the second empty. A put that answers the letter before it would make it a swap, which has 2 too.",
     "de": "Ein Postfach für einen von zwei Buchstaben, in dem ein Buchstabe den vorigen ersetzt. Literatur: 2 nach dem Satz von Herlihy 1991. Jede Operation löscht aus, was vorher war. Von zweien, die den einzigen Buchstaben nehmen, bekommt ihn der erste, der zweite empty."
    },
    "text": "# A mailbox for one of two letters, in which a letter takes the place of the one before it.\n# A channel that keeps the latest value: interfering operations of Herlihy 1991.\nname = \"mailbox_latest\"\nstates = [\"empty\", \"a\", \"b\"]\nresponses = [\"ok\", \"empty\", \"a\", \"b\"]\n[[operation]]\nname = \"put_a\"\nresponse = [\"ok\", \"ok\", \"ok\"]\nnext = [\"a\", \"a\", \"a\"]\n[[operation]]\nname = \"put_b\"\nresponse = [\"ok\", \"ok\", \"ok\"]\nnext = [\"b\", \"b\", \"b\"]\n[[operation]]\nname = \"take\"\nresponse = [\"empty\", \"a\", \"b\"]\nnext = [\"empty\", \"empty\", \"empty\"]\n"
   },
   {
    "path": "catalogue/cuda_inc_dec_2_2",
    "about": {
     "en": "A counter from 0 to 3 that goes up from 0 to 2 and then to 0, or down from 2 to 0 and then to 2, with the count before as the answer. Literature: 2 by the theorem of Herlihy 1991. From 0 to 2 one operation undoes the other, so they commute. At 3, beyond the limit, each wipes out the other. Two calls of inc2 from 0 are answered 0 and 1.",
     "de": "Ein Zähler von 0 bis 3, der von 0 bis 2 und dann auf 0 geht, oder von 2 bis 0 und dann auf 2, mit dem Stand davor als Antwort. Literatur: 2 nach dem Satz von Herlihy 1991. Von 0 bis 2 hebt eine Operation die andere auf, also vertauschen sie. Bei 3, jenseits der Grenze, löscht jede die andere aus."
    },
    "used": [
     "PTX and CUDA",
     "atom.inc",
     "atom.dec",
     "atomicInc",
     "atomicDec"
    ],
    "text": "# A counter from 0 to 3 that goes up from 0 to 2 and then to 0, or down from 2 to 0 and then to 2, with the count before as the answer.\n# atomicInc and atomicDec of CUDA with one limit, 2: interfering operations of Herlihy 1991.\nname = \"cuda_inc_dec_2_2\"\nstates = [\"0\", \"1\", \"2\", \"3\"]\nresponses = [\"0\", \"1\", \"2\", \"3\"]\n[[operation]]\nname = \"inc2\"\nresponse = [\"0\", \"1\", \"2\", \"3\"]\nnext = [\"1\", \"2\", \"0\", \"0\"]\n[[operation]]\nname = \"dec2\"\nresponse = [\"0\", \"1\", \"2\", \"3\"]\nnext = [\"2\", \"0\", \"1\", \"2\"]\n"
   }
  ]
 },
 {
  "name": {
   "en": "Number 3 and more",
   "de": "Zahl 3 und mehr"
  },
  "types": [
   {
    "path": "catalogue/fetch_or_and_3bit",
    "about": {
     "en": "Three bits: one operation sets the upper two, one clears the lower two; the answer is the bits before. No publication known. From 001 one or110 against two and100: the operations do not interfere, so Herlihy's bound of 2 does not hold. The argument stands in catalogue/README.md.",
     "de": "Drei Bits: eine Operation setzt die oberen zwei, eine löscht die unteren zwei; die Antwort sind die Bits davor. Keine Veröffentlichung bekannt. Ab 001 tut ein Prozess or110, zwei tun and100: alle drei erkennen, wer der erste war. Vier können es nicht, wie catalogue/README.md zeigt."
    },
    "text": "# Three bits: one operation sets the upper two, one clears the lower two; the answer is the bits before.\n# No publication known.\nname = \"fetch_or_and_3bit\"\nstates = [\"b000\", \"b001\", \"b010\", \"b011\", \"b100\", \"b101\", \"b110\", \"b111\"]\nresponses = [\"b000\", \"b001\", \"b010\", \"b011\", \"b100\", \"b101\", \"b110\", \"b111\"]\n[[operation]]\nname = \"or110\"\nresponse = [\"b000\", \"b001\", \"b010\", \"b011\", \"b100\", \"b101\", \"b110\", \"b111\"]\nnext = [\"b110\", \"b111\", \"b110\", \"b111\", \"b110\", \"b111\", \"b110\", \"b111\"]\n[[operation]]\nname = \"and100\"\nresponse = [\"b000\", \"b001\", \"b010\", \"b011\", \"b100\", \"b101\", \"b110\", \"b111\"]\nnext = [\"b000\", \"b000\", \"b000\", \"b000\", \"b100\", \"b100\", \"b100\", \"b100\"]\n"
   },
   {
    "path": "catalogue/cuda_inc_dec_2_3",
    "about": {
     "en": "A counter from 0 to 3 that goes up from 0 to 2 and then to 0, or down from 3 to 0 and then to 3, with the count before as the answer. No publication known. From 2 one inc2 against two dec3: inc2 goes around to 0 where dec3 goes down to 1, and they do not interfere. The argument stands in catalogue/README.md. With one limit for both the number is 2 (cuda_inc_dec_2_2).",
     "de": "Ein Zähler von 0 bis 3, der von 0 bis 2 und dann auf 0 geht, oder von 3 bis 0 und dann auf 3, mit dem Stand davor als Antwort. Keine Veröffentlichung bekannt. Ab 2 geht inc2 auf 0, und dec3 auf 1: ein inc2 und zwei dec3 erkennen, wer der erste war. Vier Prozesse können es nicht, wie catalogue/README.md zeigt. Mit derselben Grenze für beide ist die Zahl 2."
    },
    "used": [
     "PTX and CUDA",
     "atom.inc",
     "atom.dec"
    ],
    "text": "# A counter from 0 to 3 that goes up from 0 to 2 and then to 0, or down from 3 to 0 and then to 3, with the count before as the answer.\n# atomicInc and atomicDec of CUDA with the limits 2 and 3; no publication known.\nname = \"cuda_inc_dec_2_3\"\nstates = [\"0\", \"1\", \"2\", \"3\"]\nresponses = [\"0\", \"1\", \"2\", \"3\"]\n[[operation]]\nname = \"inc2\"\nresponse = [\"0\", \"1\", \"2\", \"3\"]\nnext = [\"1\", \"2\", \"0\", \"0\"]\n[[operation]]\nname = \"dec3\"\nresponse = [\"0\", \"1\", \"2\", \"3\"]\nnext = [\"3\", \"0\", \"1\", \"2\"]\n"
   },
   {
    "path": "catalogue/fetch_nand_3bit",
    "about": {
     "en": "Three bits, which become the complement of their and with a mask, with the bits before as the answer, with 2 of its 8 operations. No publication known. From 001 one nand110 against three nand011: each operation turns two bits over and sets a third, which the other turns over, so they do not interfere. The argument stands in catalogue/README.md.",
     "de": "Drei Bits, die zum Gegenteil ihres Und mit einer Maske werden, mit den Bits davor als Antwort, mit 2 seiner 8 Operationen. Keine Veröffentlichung bekannt. Ab 001 ein nand110 gegen drei nand011: jede Operation kehrt zwei Bits um und setzt ein drittes, das die andere umkehrt, also stören sie sich nicht. Fünf Prozesse können nicht erkennen, wer der erste war, wie catalogue/README.md zeigt."
    },
    "used": [
     "Rust",
     "fetch_nand"
    ],
    "text": "# Three bits, which become the complement of their and with a mask, with the bits before as the answer, with 2 of its 8 operations.\n# fetch_nand of Rust and of GCC's __atomic_fetch_nand; no publication known.\nname = \"fetch_nand_3bit\"\nstates = [\"b000\", \"b001\", \"b010\", \"b011\", \"b100\", \"b101\", \"b110\", \"b111\"]\nresponses = [\"b000\", \"b001\", \"b010\", \"b011\", \"b100\", \"b101\", \"b110\", \"b111\"]\n[[operation]]\nname = \"nand110\"\nresponse = [\"b000\", \"b001\", \"b010\", \"b011\", \"b100\", \"b101\", \"b110\", \"b111\"]\nnext = [\"b111\", \"b111\", \"b101\", \"b101\", \"b011\", \"b011\", \"b001\", \"b001\"]\n[[operation]]\nname = \"nand011\"\nresponse = [\"b000\", \"b001\", \"b010\", \"b011\", \"b100\", \"b101\", \"b110\", \"b111\"]\nnext = [\"b111\", \"b110\", \"b101\", \"b100\", \"b111\", \"b110\", \"b101\", \"b100\"]\n"
   }
  ]
 },
 {
  "name": {
   "en": "No greatest number",
   "de": "Keine größte Zahl"
  },
  "types": [
   {
    "path": "catalogue/cas_3_bool",
    "about": {
     "en": "Compare-and-swap on 3 values that answers only whether it swapped. Literature: infinite, for one that answers the old value (cas_3) (Herlihy 1991). From 0, cas01 and cas02: the first call decides the value, which then stays. Without a read, yes and no alone are enough for three, and no more: from 0 one does cas01 and two do cas02; who of these two is answered no, does cas21, and is answered yes exactly if the other was first.",
     "de": "Compare-and-swap auf 3 Werten, das nur antwortet, ob es getauscht hat. Literatur: unendlich, wenn es mit dem alten Wert antwortet (Herlihy 1991). Ab 0 tut einer cas01, die anderen cas02: der erste Aufruf bestimmt den Wert, der dann bleibt. Ohne Lesen genügen ja und nein für drei Prozesse und nicht für mehr."
    },
    "text": "# Compare-and-swap on 3 values that answers only whether it swapped.\n# Herlihy 1991.\nname = \"cas_3_bool\"\nstates = [\"0\", \"1\", \"2\"]\nresponses = [\"yes\", \"no\"]\n[[operation]]\nname = \"cas01\"\nresponse = [\"yes\", \"no\", \"no\"]\nnext = [\"1\", \"1\", \"2\"]\n[[operation]]\nname = \"cas02\"\nresponse = [\"yes\", \"no\", \"no\"]\nnext = [\"2\", \"1\", \"2\"]\n[[operation]]\nname = \"cas10\"\nresponse = [\"no\", \"yes\", \"no\"]\nnext = [\"0\", \"0\", \"2\"]\n[[operation]]\nname = \"cas12\"\nresponse = [\"no\", \"yes\", \"no\"]\nnext = [\"0\", \"2\", \"2\"]\n[[operation]]\nname = \"cas20\"\nresponse = [\"no\", \"no\", \"yes\"]\nnext = [\"0\", \"1\", \"0\"]\n[[operation]]\nname = \"cas21\"\nresponse = [\"no\", \"no\", \"yes\"]\nnext = [\"0\", \"1\", \"1\"]\n"
   },
   {
    "path": "catalogue/dcas_2x2",
    "about": {
     "en": "Compare-and-swap on two words of one bit at once that answers whether it swapped, with 8 of its 12 operations. Literature: infinite for compare-and-swap (Herlihy 1991). From 00, dcas00_01 against dcas00_10: the first call decides both bits, which then stay. Compare-and-swap on one bit has 2 (cas_2).",
     "de": "Compare-and-swap auf zwei Wörtern von einem Bit zugleich, das antwortet, ob es getauscht hat, mit 8 seiner 12 Operationen. Literatur: unendlich für Compare-and-swap (Herlihy 1991). Ab 00 tut einer dcas00_01, die anderen dcas00_10: der erste Aufruf bestimmt beide Bits, die dann bleiben."
    },
    "used": [
     "x86",
     "LOCK CMPXCHG8B",
     "CMPXCHG16B",
     "ARM with LSE",
     "CASP",
     "RISC-V: A and Zacas",
     "AMOCAS.Q",
     "AMOCAS.D",
     "Java",
     "compareAndSet",
     "AtomicStampedReference"
    ],
    "text": "# Compare-and-swap on two words of one bit at once that answers whether it swapped, with 8 of its 12 operations.\n# Compare-and-swap: Herlihy 1991.\nname = \"dcas_2x2\"\nstates = [\"b00\", \"b01\", \"b10\", \"b11\"]\nresponses = [\"yes\", \"no\"]\n[[operation]]\nname = \"dcas00_01\"\nresponse = [\"yes\", \"no\", \"no\", \"no\"]\nnext = [\"b01\", \"b01\", \"b10\", \"b11\"]\n[[operation]]\nname = \"dcas00_10\"\nresponse = [\"yes\", \"no\", \"no\", \"no\"]\nnext = [\"b10\", \"b01\", \"b10\", \"b11\"]\n[[operation]]\nname = \"dcas00_11\"\nresponse = [\"yes\", \"no\", \"no\", \"no\"]\nnext = [\"b11\", \"b01\", \"b10\", \"b11\"]\n[[operation]]\nname = \"dcas01_00\"\nresponse = [\"no\", \"yes\", \"no\", \"no\"]\nnext = [\"b00\", \"b00\", \"b10\", \"b11\"]\n[[operation]]\nname = \"dcas10_00\"\nresponse = [\"no\", \"no\", \"yes\", \"no\"]\nnext = [\"b00\", \"b01\", \"b00\", \"b11\"]\n[[operation]]\nname = \"dcas11_00\"\nresponse = [\"no\", \"no\", \"no\", \"yes\"]\nnext = [\"b00\", \"b01\", \"b10\", \"b00\"]\n[[operation]]\nname = \"dcas01_10\"\nresponse = [\"no\", \"yes\", \"no\", \"no\"]\nnext = [\"b00\", \"b10\", \"b10\", \"b11\"]\n[[operation]]\nname = \"dcas10_01\"\nresponse = [\"no\", \"no\", \"yes\", \"no\"]\nnext = [\"b00\", \"b01\", \"b01\", \"b11\"]\n"
   },
   {
    "path": "catalogue/rmw_3_any",
    "about": {
     "en": "Three values with three ways to read and change them at once. Literature: infinite: three values, in contrast to two (Loui and Abu-Amara 1987). From 0, put1 and put2: the first call decides the value, which then stays.",
     "de": "Drei Werte mit drei Arten, sie in einem Schritt zu lesen und zu ändern. Literatur: unendlich mit drei Werten, anders als mit zwei (Loui and Abu-Amara 1987). Ab 0 tut einer put1, die anderen put2: der erste Aufruf bestimmt den Wert, der dann bleibt."
    },
    "text": "# Three values with three ways to read and change them at once.\n# Loui and Abu-Amara 1987.\nname = \"rmw_3_any\"\nstates = [\"0\", \"1\", \"2\"]\nresponses = [\"0\", \"1\", \"2\"]\n[[operation]]\nname = \"put1\"\nresponse = [\"0\", \"1\", \"2\"]\nnext = [\"1\", \"1\", \"2\"]\n[[operation]]\nname = \"put2\"\nresponse = [\"0\", \"1\", \"2\"]\nnext = [\"2\", \"1\", \"2\"]\n[[operation]]\nname = \"rot\"\nresponse = [\"0\", \"1\", \"2\"]\nnext = [\"1\", \"2\", \"0\"]\n"
   },
   {
    "path": "catalogue/swap_if_zero",
    "about": {
     "en": "A register of 3 values that is written if it is 0, with the value before as the answer. Literature: infinite for compare-and-swap, from three values on (Herlihy 1991; Loui and Abu-Amara 1987). From 0, swap1 against swap2: the first call decides the value, which then stays. Each call is answered the value before it, and so knows the one that stays.",
     "de": "Ein Register von 3 Werten, das beschrieben wird, wenn es 0 ist, mit dem Wert davor als Antwort. Literatur: unendlich für Compare-and-swap, ab drei Werten (Herlihy 1991; Loui and Abu-Amara 1987). Ab 0 tut einer swap1, die anderen swap2: der erste Aufruf bestimmt den Wert, der dann bleibt und den jeder erfährt."
    },
    "used": [
     "Java",
     "putIfAbsent"
    ],
    "text": "# A register of 3 values that is written if it is 0, with the value before as the answer.\n# Compare-and-swap from 0: Herlihy 1991; three values: Loui and Abu-Amara 1987.\nname = \"swap_if_zero\"\nstates = [\"0\", \"1\", \"2\"]\nresponses = [\"0\", \"1\", \"2\"]\n[[operation]]\nname = \"swap1\"\nresponse = [\"0\", \"1\", \"2\"]\nnext = [\"1\", \"1\", \"2\"]\n[[operation]]\nname = \"swap2\"\nresponse = [\"0\", \"1\", \"2\"]\nnext = [\"2\", \"1\", \"2\"]\n"
   },
   {
    "path": "catalogue/sticky_bit_flush",
    "about": {
     "en": "A sticky bit that answers whether the value put is the one that sticks, and can be emptied. Literature: infinite (Plotkin 1989). The first value sticks, and nobody flushes.",
     "de": "Ein Bit, das den ersten Wert behält, antwortet, ob der gegebene Wert der behaltene ist, und geleert werden kann. Literatur: unendlich (Plotkin 1989). Der erste Wert bleibt, solange niemand leert."
    },
    "text": "# A sticky bit that answers whether the value put is the one that sticks, and can be emptied.\n# Plotkin 1989.\nname = \"sticky_bit_flush\"\nstates = [\"unset\", \"0\", \"1\"]\nresponses = [\"ok\", \"fail\"]\n[[operation]]\nname = \"jam0\"\nresponse = [\"ok\", \"ok\", \"fail\"]\nnext = [\"0\", \"0\", \"1\"]\n[[operation]]\nname = \"jam1\"\nresponse = [\"ok\", \"fail\", \"ok\"]\nnext = [\"1\", \"0\", \"1\"]\n[[operation]]\nname = \"flush\"\nresponse = [\"ok\", \"ok\", \"ok\"]\nnext = [\"unset\", \"unset\", \"unset\"]\n"
   },
   {
    "path": "catalogue/once_cell",
    "about": {
     "en": "A cell that keeps the first of two values set, and answers only whether this call set it. Literature: infinite for the sticky bit, which shows its value (Plotkin 1989). The first value set stays, and get shows it, which is a read. With set alone, who is refused does not learn the value: a third process cannot tell which of two others was first. get_or_init answers the value that stays, as sticky_2.",
     "de": "Eine Zelle, die den ersten von zwei gesetzten Werten behält und nur antwortet, ob dieser Aufruf ihn gesetzt hat. Literatur: unendlich für das klebende Bit, das seinen Wert zeigt (Plotkin 1989). Der erste Wert bleibt, und get zeigt ihn. Mit set allein erfährt ein abgewiesener Aufruf den Wert nicht: die Zahl ohne Lesen ist 2."
    },
    "used": [
     "Rust",
     "OnceLock::set"
    ],
    "text": "# A cell that keeps the first of two values set, and answers only whether this call set it.\n# set of Rust's OnceLock; sticky bit: Plotkin 1989.\nname = \"once_cell\"\nstates = [\"unset\", \"a\", \"b\"]\nresponses = [\"ok\", \"err\"]\n[[operation]]\nname = \"set_a\"\nresponse = [\"ok\", \"err\", \"err\"]\nnext = [\"a\", \"a\", \"b\"]\n[[operation]]\nname = \"set_b\"\nresponse = [\"ok\", \"err\", \"err\"]\nnext = [\"b\", \"a\", \"b\"]\n"
   },
   {
    "path": "catalogue/ll_sc_2",
    "about": {
     "en": "Load-linked and store-conditional on one bit for two processes, whose links are part of the state. Literature: infinite (Herlihy 1993). From a state with the link of process 0: each of any number of processes does sc0_0 or sc0_1. The first succeeds and takes the link away, so its value stays. So everybody uses the operations of process 0, as the table allows, also without a read: a look is a load-linked. Of an object that two callers share, each by its own operations, the number is 2.",
     "de": "Load-linked und Store-conditional auf einem Bit für zwei Prozesse, deren Verbindungen zum Zustand gehören. Literatur: unendlich (Herlihy 1993). Ab einem Zustand mit der Verbindung von Prozess 0 tut jeder sc0_0 oder sc0_1. Der erste hat Erfolg und löst die Verbindung, also bleibt sein Wert. Die Tabelle lässt jeden die Operationen von Prozess 0 tun. Bei einem Objekt, das zwei Aufrufer mit je eigenen Operationen teilen, ist die Zahl 2."
    },
    "used": [
     "ARM with LSE",
     "LDXR",
     "STXR",
     "RISC-V: A and Zacas",
     "LR",
     "SC"
    ],
    "text": "# Load-linked and store-conditional on one bit for two processes, whose links are part of the state.\n# Herlihy 1993.\nname = \"ll_sc_2\"\nstates = [\"v0l00\", \"v0l01\", \"v0l10\", \"v0l11\", \"v1l00\", \"v1l01\", \"v1l10\", \"v1l11\"]\nresponses = [\"v0\", \"v1\", \"no\", \"yes\"]\n[[operation]]\nname = \"ll0\"\nresponse = [\"v0\", \"v0\", \"v0\", \"v0\", \"v1\", \"v1\", \"v1\", \"v1\"]\nnext = [\"v0l01\", \"v0l01\", \"v0l11\", \"v0l11\", \"v1l01\", \"v1l01\", \"v1l11\", \"v1l11\"]\n[[operation]]\nname = \"ll1\"\nresponse = [\"v0\", \"v0\", \"v0\", \"v0\", \"v1\", \"v1\", \"v1\", \"v1\"]\nnext = [\"v0l10\", \"v0l11\", \"v0l10\", \"v0l11\", \"v1l10\", \"v1l11\", \"v1l10\", \"v1l11\"]\n[[operation]]\nname = \"sc0_0\"\nresponse = [\"no\", \"yes\", \"no\", \"yes\", \"no\", \"yes\", \"no\", \"yes\"]\nnext = [\"v0l00\", \"v0l00\", \"v0l10\", \"v0l00\", \"v1l00\", \"v0l00\", \"v1l10\", \"v0l00\"]\n[[operation]]\nname = \"sc0_1\"\nresponse = [\"no\", \"yes\", \"no\", \"yes\", \"no\", \"yes\", \"no\", \"yes\"]\nnext = [\"v0l00\", \"v1l00\", \"v0l10\", \"v1l00\", \"v1l00\", \"v1l00\", \"v1l10\", \"v1l00\"]\n[[operation]]\nname = \"sc1_0\"\nresponse = [\"no\", \"no\", \"yes\", \"yes\", \"no\", \"no\", \"yes\", \"yes\"]\nnext = [\"v0l00\", \"v0l01\", \"v0l00\", \"v0l00\", \"v1l00\", \"v1l01\", \"v0l00\", \"v0l00\"]\n[[operation]]\nname = \"sc1_1\"\nresponse = [\"no\", \"no\", \"yes\", \"yes\", \"no\", \"no\", \"yes\", \"yes\"]\nnext = [\"v0l00\", \"v0l01\", \"v1l00\", \"v1l00\", \"v1l00\", \"v1l01\", \"v1l00\", \"v1l00\"]\n"
   },
   {
    "path": "catalogue/consensus_3_keeps",
    "about": {
     "en": "Answers three calls with the letter of the first, then nothing, but goes on holding it. Literature: 3, by its making, for an object that cannot be read. The winner stays to be read after the third call: for readers it is a sticky bit. To have 3 with reads it must forget: shot_3.",
     "de": "Beantwortet drei Aufrufe mit dem Buchstaben des ersten, dann keinen mehr, aber behält ihn. Literatur: 3, nach seinem Bau, für ein Objekt, das man nicht lesen kann. Den ersten Buchstaben kann man auch nach dem dritten Aufruf lesen. Um mit Lesen 3 zu haben, muss es vergessen: shot_3."
    },
    "text": "# Answers three calls with the letter of the first, then nothing, but goes on holding it.\n# An agreement object for three processes, as folklore has it.\nname = \"consensus_3_keeps\"\nstates = [\"bot\", \"a1\", \"b1\", \"a2\", \"b2\", \"a3\", \"b3\"]\nresponses = [\"a\", \"b\", \"none\"]\n[[operation]]\nname = \"propose_a\"\nresponse = [\"a\", \"a\", \"b\", \"a\", \"b\", \"none\", \"none\"]\nnext = [\"a1\", \"a2\", \"b2\", \"a3\", \"b3\", \"a3\", \"b3\"]\n[[operation]]\nname = \"propose_b\"\nresponse = [\"b\", \"a\", \"b\", \"a\", \"b\", \"none\", \"none\"]\nnext = [\"b1\", \"a2\", \"b2\", \"a3\", \"b3\", \"a3\", \"b3\"]\n"
   },
   {
    "path": "catalogue/queue_1",
    "about": {
     "en": "A queue of two letters with room for 1, whose whole content can be read. Literature: 2 for the queue, infinite for the augmented queue, which shows its oldest item (Herlihy 1991). A reader sees the oldest item, that of the first who put one in: readable, it is the augmented queue. Without a read, only who takes an item sees it.",
     "de": "Eine Warteschlange für zwei Buchstaben mit Platz für 1, deren ganzer Inhalt gelesen werden kann. Literatur: 2 für die Warteschlange, unendlich für die, die ihren ältesten Eintrag zeigt (Herlihy 1991). Wer liest, sieht den ältesten Eintrag, den des ersten, denn was nicht passt, wird abgewiesen. Ohne Lesen sieht einen Eintrag nur, wer ihn nimmt."
    },
    "text": "# A queue of two letters with room for 1, whose whole content can be read.\n# Queue and augmented queue: Herlihy 1991.\nname = \"queue_1\"\nstates = [\"q\", \"qa\", \"qb\"]\nresponses = [\"ok\", \"full\", \"empty\", \"a\", \"b\"]\n[[operation]]\nname = \"enq_a\"\nresponse = [\"ok\", \"full\", \"full\"]\nnext = [\"qa\", \"qa\", \"qb\"]\n[[operation]]\nname = \"enq_b\"\nresponse = [\"ok\", \"full\", \"full\"]\nnext = [\"qb\", \"qa\", \"qb\"]\n[[operation]]\nname = \"deq\"\nresponse = [\"empty\", \"a\", \"b\"]\nnext = [\"q\", \"q\", \"q\"]\n"
   },
   {
    "path": "catalogue/queue_2",
    "about": {
     "en": "A queue of two letters with room for 2, whose whole content can be read. Literature: 2 for the queue, infinite for the augmented queue (Herlihy 1991). A reader sees the oldest item, that of the first who put one in, since what does not fit is refused: readable, it is the augmented queue. Without a read, only who takes an item sees it.",
     "de": "Eine Warteschlange für zwei Buchstaben mit Platz für 2, deren ganzer Inhalt gelesen werden kann. Literatur: 2 für die Warteschlange, unendlich für die, die ihren ältesten Eintrag zeigt (Herlihy 1991). Wer liest, sieht den ältesten Eintrag, den des ersten, denn was nicht passt, wird abgewiesen. Ohne Lesen sieht einen Eintrag nur, wer ihn nimmt."
    },
    "used": [
     "Java",
     "offer",
     "poll"
    ],
    "text": "# A queue of two letters with room for 2, whose whole content can be read.\n# Queue and augmented queue: Herlihy 1991.\nname = \"queue_2\"\nstates = [\"q\", \"qa\", \"qb\", \"qaa\", \"qab\", \"qba\", \"qbb\"]\nresponses = [\"ok\", \"full\", \"empty\", \"a\", \"b\"]\n[[operation]]\nname = \"enq_a\"\nresponse = [\"ok\", \"ok\", \"ok\", \"full\", \"full\", \"full\", \"full\"]\nnext = [\"qa\", \"qaa\", \"qba\", \"qaa\", \"qab\", \"qba\", \"qbb\"]\n[[operation]]\nname = \"enq_b\"\nresponse = [\"ok\", \"ok\", \"ok\", \"full\", \"full\", \"full\", \"full\"]\nnext = [\"qb\", \"qab\", \"qbb\", \"qaa\", \"qab\", \"qba\", \"qbb\"]\n[[operation]]\nname = \"deq\"\nresponse = [\"empty\", \"a\", \"b\", \"a\", \"a\", \"b\", \"b\"]\nnext = [\"q\", \"q\", \"q\", \"qa\", \"qb\", \"qa\", \"qb\"]\n"
   },
   {
    "path": "catalogue/queue_3",
    "about": {
     "en": "A queue of two letters with room for 3, whose whole content can be read. Literature: 2 for the queue, infinite for the augmented queue (Herlihy 1991). A reader sees the oldest item, that of the first who put one in, since what does not fit is refused: readable, it is the augmented queue. Without a read, only who takes an item sees it.",
     "de": "Eine Warteschlange für zwei Buchstaben mit Platz für 3, deren ganzer Inhalt gelesen werden kann. Literatur: 2 für die Warteschlange, unendlich für die, die ihren ältesten Eintrag zeigt (Herlihy 1991). Wer liest, sieht den ältesten Eintrag, den des ersten, denn was nicht passt, wird abgewiesen. Ohne Lesen sieht einen Eintrag nur, wer ihn nimmt."
    },
    "text": "# A queue of two letters with room for 3, whose whole content can be read.\n# Queue and augmented queue: Herlihy 1991.\nname = \"queue_3\"\nstates = [\"q\", \"qa\", \"qb\", \"qaa\", \"qab\", \"qba\", \"qbb\", \"qaaa\", \"qaab\", \"qaba\", \"qabb\", \"qbaa\", \"qbab\", \"qbba\", \"qbbb\"]\nresponses = [\"ok\", \"full\", \"empty\", \"a\", \"b\"]\n[[operation]]\nname = \"enq_a\"\nresponse = [\"ok\", \"ok\", \"ok\", \"ok\", \"ok\", \"ok\", \"ok\", \"full\", \"full\", \"full\", \"full\", \"full\", \"full\", \"full\", \"full\"]\nnext = [\"qa\", \"qaa\", \"qba\", \"qaaa\", \"qaba\", \"qbaa\", \"qbba\", \"qaaa\", \"qaab\", \"qaba\", \"qabb\", \"qbaa\", \"qbab\", \"qbba\", \"qbbb\"]\n[[operation]]\nname = \"enq_b\"\nresponse = [\"ok\", \"ok\", \"ok\", \"ok\", \"ok\", \"ok\", \"ok\", \"full\", \"full\", \"full\", \"full\", \"full\", \"full\", \"full\", \"full\"]\nnext = [\"qb\", \"qab\", \"qbb\", \"qaab\", \"qabb\", \"qbab\", \"qbbb\", \"qaaa\", \"qaab\", \"qaba\", \"qabb\", \"qbaa\", \"qbab\", \"qbba\", \"qbbb\"]\n[[operation]]\nname = \"deq\"\nresponse = [\"empty\", \"a\", \"b\", \"a\", \"a\", \"b\", \"b\", \"a\", \"a\", \"a\", \"a\", \"b\", \"b\", \"b\", \"b\"]\nnext = [\"q\", \"q\", \"q\", \"qa\", \"qb\", \"qa\", \"qb\", \"qaa\", \"qab\", \"qba\", \"qbb\", \"qaa\", \"qab\", \"qba\", \"qbb\"]\n"
   },
   {
    "path": "catalogue/peek_queue_2",
    "about": {
     "en": "A queue of two letters with room for 2 and a look at its oldest item. Literature: infinite (Herlihy 1991). The first item put in stays to be seen, as long as nobody takes.",
     "de": "Eine Warteschlange für zwei Buchstaben mit Platz für 2 und einem Blick auf den ältesten Eintrag. Literatur: unendlich (Herlihy 1991). Der erste Eintrag bleibt zu sehen, solange niemand etwas nimmt."
    },
    "used": [
     "Java",
     "offer",
     "poll",
     "peek"
    ],
    "text": "# A queue of two letters with room for 2 and a look at its oldest item.\n# Augmented queue: Herlihy 1991.\nname = \"peek_queue_2\"\nstates = [\"q\", \"qa\", \"qb\", \"qaa\", \"qab\", \"qba\", \"qbb\"]\nresponses = [\"ok\", \"full\", \"empty\", \"a\", \"b\"]\n[[operation]]\nname = \"enq_a\"\nresponse = [\"ok\", \"ok\", \"ok\", \"full\", \"full\", \"full\", \"full\"]\nnext = [\"qa\", \"qaa\", \"qba\", \"qaa\", \"qab\", \"qba\", \"qbb\"]\n[[operation]]\nname = \"enq_b\"\nresponse = [\"ok\", \"ok\", \"ok\", \"full\", \"full\", \"full\", \"full\"]\nnext = [\"qb\", \"qab\", \"qbb\", \"qaa\", \"qab\", \"qba\", \"qbb\"]\n[[operation]]\nname = \"deq\"\nresponse = [\"empty\", \"a\", \"b\", \"a\", \"a\", \"b\", \"b\"]\nnext = [\"q\", \"q\", \"q\", \"qa\", \"qb\", \"qa\", \"qb\"]\n[[operation]]\nname = \"peek\"\nresponse = [\"empty\", \"a\", \"b\", \"a\", \"a\", \"b\", \"b\"]\nnext = [\"q\", \"qa\", \"qb\", \"qaa\", \"qab\", \"qba\", \"qbb\"]\n"
   },
   {
    "path": "catalogue/mailbox_refuse",
    "about": {
     "en": "A mailbox for one of two letters, which refuses a letter while it has one. Literature: 2 for the queue, infinite for the augmented queue, which shows its oldest item (Herlihy 1991). A reader sees the letter of the first who put one in, as a further one is refused: it is a queue with room for one (queue_1). Without a read, only who takes the letter sees it.",
     "de": "Ein Postfach für einen von zwei Buchstaben, das einen weiteren abweist. Literatur: 2 für die Warteschlange, unendlich für die, die ihren ältesten Eintrag zeigt (Herlihy 1991). Wer liest, sieht den Buchstaben des ersten: es ist eine Warteschlange mit Platz für einen. Ohne Lesen sieht ihn nur, wer ihn nimmt."
    },
    "used": [
     "Rust",
     "try_send",
     "try_recv",
     "sync_channel"
    ],
    "text": "# A mailbox for one of two letters, which refuses a letter while it has one.\n# try_send and try_recv of a channel with room for one: the queue of Herlihy 1991.\nname = \"mailbox_refuse\"\nstates = [\"empty\", \"a\", \"b\"]\nresponses = [\"ok\", \"full\", \"empty\", \"a\", \"b\"]\n[[operation]]\nname = \"put_a\"\nresponse = [\"ok\", \"full\", \"full\"]\nnext = [\"a\", \"a\", \"b\"]\n[[operation]]\nname = \"put_b\"\nresponse = [\"ok\", \"full\", \"full\"]\nnext = [\"b\", \"a\", \"b\"]\n[[operation]]\nname = \"take\"\nresponse = [\"empty\", \"a\", \"b\"]\nnext = [\"empty\", \"empty\", \"empty\"]\n"
   },
   {
    "path": "catalogue/stack_2",
    "about": {
     "en": "A stack of two letters with room for 2, whose whole content can be read. Literature: 2 for the stack (Herlihy 1991). A reader sees the lowest item, that of the first who put one in. Without a read it is the literature's stack.",
     "de": "Ein Stapel für zwei Buchstaben mit Platz für 2, dessen ganzer Inhalt gelesen werden kann. Literatur: 2 für den Stapel (Herlihy 1991). Wer liest, sieht den untersten Eintrag, den des ersten. Ohne Lesen ist es der Stapel der Literatur."
    },
    "text": "# A stack of two letters with room for 2, whose whole content can be read.\n# Stack: Herlihy 1991.\nname = \"stack_2\"\nstates = [\"q\", \"qa\", \"qb\", \"qaa\", \"qab\", \"qba\", \"qbb\"]\nresponses = [\"ok\", \"full\", \"empty\", \"a\", \"b\"]\n[[operation]]\nname = \"push_a\"\nresponse = [\"ok\", \"ok\", \"ok\", \"full\", \"full\", \"full\", \"full\"]\nnext = [\"qa\", \"qaa\", \"qba\", \"qaa\", \"qab\", \"qba\", \"qbb\"]\n[[operation]]\nname = \"push_b\"\nresponse = [\"ok\", \"ok\", \"ok\", \"full\", \"full\", \"full\", \"full\"]\nnext = [\"qb\", \"qab\", \"qbb\", \"qaa\", \"qab\", \"qba\", \"qbb\"]\n[[operation]]\nname = \"pop\"\nresponse = [\"empty\", \"a\", \"b\", \"a\", \"b\", \"a\", \"b\"]\nnext = [\"q\", \"q\", \"q\", \"qa\", \"qa\", \"qb\", \"qb\"]\n"
   },
   {
    "path": "catalogue/stack_3",
    "about": {
     "en": "A stack of two letters with room for 3, whose whole content can be read. Literature: 2 for the stack (Herlihy 1991). A reader sees the lowest item, that of the first who put one in. Without a read it is the literature's stack.",
     "de": "Ein Stapel für zwei Buchstaben mit Platz für 3, dessen ganzer Inhalt gelesen werden kann. Literatur: 2 für den Stapel (Herlihy 1991). Wer liest, sieht den untersten Eintrag, den des ersten. Ohne Lesen ist es der Stapel der Literatur."
    },
    "text": "# A stack of two letters with room for 3, whose whole content can be read.\n# Stack: Herlihy 1991.\nname = \"stack_3\"\nstates = [\"q\", \"qa\", \"qb\", \"qaa\", \"qab\", \"qba\", \"qbb\", \"qaaa\", \"qaab\", \"qaba\", \"qabb\", \"qbaa\", \"qbab\", \"qbba\", \"qbbb\"]\nresponses = [\"ok\", \"full\", \"empty\", \"a\", \"b\"]\n[[operation]]\nname = \"push_a\"\nresponse = [\"ok\", \"ok\", \"ok\", \"ok\", \"ok\", \"ok\", \"ok\", \"full\", \"full\", \"full\", \"full\", \"full\", \"full\", \"full\", \"full\"]\nnext = [\"qa\", \"qaa\", \"qba\", \"qaaa\", \"qaba\", \"qbaa\", \"qbba\", \"qaaa\", \"qaab\", \"qaba\", \"qabb\", \"qbaa\", \"qbab\", \"qbba\", \"qbbb\"]\n[[operation]]\nname = \"push_b\"\nresponse = [\"ok\", \"ok\", \"ok\", \"ok\", \"ok\", \"ok\", \"ok\", \"full\", \"full\", \"full\", \"full\", \"full\", \"full\", \"full\", \"full\"]\nnext = [\"qb\", \"qab\", \"qbb\", \"qaab\", \"qabb\", \"qbab\", \"qbbb\", \"qaaa\", \"qaab\", \"qaba\", \"qabb\", \"qbaa\", \"qbab\", \"qbba\", \"qbbb\"]\n[[operation]]\nname = \"pop\"\nresponse = [\"empty\", \"a\", \"b\", \"a\", \"b\", \"a\", \"b\", \"a\", \"b\", \"a\", \"b\", \"a\", \"b\", \"a\", \"b\"]\nnext = [\"q\", \"q\", \"q\", \"qa\", \"qa\", \"qb\", \"qb\", \"qaa\", \"qaa\", \"qab\", \"qab\", \"qba\", \"qba\", \"qbb\", \"qbb\"]\n"
   },
   {
    "path": "catalogue/deque_2",
    "about": {
     "en": "A queue of two letters with two ends, to put in and to take out at each, with room for 2, whose whole content can be read. Literature: at least 2 for a deque that cannot be read, since it is a queue (Herlihy 1991). All put in at one end, what does not fit is refused, and a reader sees the first item at the other end. We know of no source that has the 2 without a read.",
     "de": "Eine Warteschlange für zwei Buchstaben mit zwei Enden und Platz für 2, deren ganzer Inhalt gelesen werden kann. Literatur: mindestens 2, wenn man sie nicht lesen kann (Herlihy 1991). Alle fügen an einem Ende ein, was nicht passt, wird abgewiesen, und wer liest, sieht am anderen Ende den ersten Eintrag."
    },
    "text": "# A queue of two letters with two ends, to put in and to take out at each, with room for 2, whose whole content can be read.\n# Queue: Herlihy 1991.\nname = \"deque_2\"\nstates = [\"q\", \"qa\", \"qb\", \"qaa\", \"qba\", \"qab\", \"qbb\"]\nresponses = [\"ok\", \"full\", \"empty\", \"a\", \"b\"]\n[[operation]]\nname = \"push_front_a\"\nresponse = [\"ok\", \"ok\", \"ok\", \"full\", \"full\", \"full\", \"full\"]\nnext = [\"qa\", \"qaa\", \"qab\", \"qaa\", \"qba\", \"qab\", \"qbb\"]\n[[operation]]\nname = \"push_front_b\"\nresponse = [\"ok\", \"ok\", \"ok\", \"full\", \"full\", \"full\", \"full\"]\nnext = [\"qb\", \"qba\", \"qbb\", \"qaa\", \"qba\", \"qab\", \"qbb\"]\n[[operation]]\nname = \"push_back_a\"\nresponse = [\"ok\", \"ok\", \"ok\", \"full\", \"full\", \"full\", \"full\"]\nnext = [\"qa\", \"qaa\", \"qba\", \"qaa\", \"qba\", \"qab\", \"qbb\"]\n[[operation]]\nname = \"push_back_b\"\nresponse = [\"ok\", \"ok\", \"ok\", \"full\", \"full\", \"full\", \"full\"]\nnext = [\"qb\", \"qab\", \"qbb\", \"qaa\", \"qba\", \"qab\", \"qbb\"]\n[[operation]]\nname = \"pop_front\"\nresponse = [\"empty\", \"a\", \"b\", \"a\", \"b\", \"a\", \"b\"]\nnext = [\"q\", \"q\", \"q\", \"qa\", \"qa\", \"qb\", \"qb\"]\n[[operation]]\nname = \"pop_back\"\nresponse = [\"empty\", \"a\", \"b\", \"a\", \"a\", \"b\", \"b\"]\nnext = [\"q\", \"q\", \"q\", \"qa\", \"qb\", \"qa\", \"qb\"]\n"
   },
   {
    "path": "catalogue/priority_queue_2",
    "about": {
     "en": "A priority queue of 2 keys, each in it at most once, whose whole content can be read. Literature: at least 2 for priority queues (Herlihy 1991). From the state that holds key 1 alone, one delmin against any number of insert0: key 1 is gone for good exactly where delmin was first. The literature's cannot be read; we know of no source that has the 2 for it.",
     "de": "Eine Vorrangwarteschlange mit 2 Schlüsseln, jeder höchstens einmal darin, deren ganzer Inhalt gelesen werden kann. Literatur: mindestens 2 für Vorrangwarteschlangen (Herlihy 1991). Wenn nur Schlüssel 1 darin ist, tut einer delmin, die anderen insert0: Schlüssel 1 ist genau dann für immer fort, wenn delmin zuerst kam."
    },
    "text": "# A priority queue of 2 keys, each in it at most once, whose whole content can be read.\n# Priority queues: Herlihy 1991.\nname = \"priority_queue_2\"\nstates = [\"b00\", \"b01\", \"b10\", \"b11\"]\nresponses = [\"ok\", \"empty\", \"0\", \"1\"]\n[[operation]]\nname = \"insert0\"\nresponse = [\"ok\", \"ok\", \"ok\", \"ok\"]\nnext = [\"b01\", \"b01\", \"b11\", \"b11\"]\n[[operation]]\nname = \"insert1\"\nresponse = [\"ok\", \"ok\", \"ok\", \"ok\"]\nnext = [\"b10\", \"b11\", \"b10\", \"b11\"]\n[[operation]]\nname = \"delmin\"\nresponse = [\"empty\", \"0\", \"1\", \"0\"]\nnext = [\"b00\", \"b00\", \"b00\", \"b10\"]\n"
   },
   {
    "path": "catalogue/priority_queue_3",
    "about": {
     "en": "A priority queue of 3 keys, each in it at most once, whose whole content can be read. Literature: at least 2 for priority queues (Herlihy 1991). From the state that holds key 1 alone, one delmin against any number of insert0: key 1 is gone for good exactly where delmin was first. The literature's cannot be read; we know of no source that has the 2 for it.",
     "de": "Eine Vorrangwarteschlange mit 3 Schlüsseln, jeder höchstens einmal darin, deren ganzer Inhalt gelesen werden kann. Literatur: mindestens 2 für Vorrangwarteschlangen (Herlihy 1991). Wenn nur Schlüssel 1 darin ist, tut einer delmin, die anderen insert0: Schlüssel 1 ist genau dann für immer fort, wenn delmin zuerst kam."
    },
    "text": "# A priority queue of 3 keys, each in it at most once, whose whole content can be read.\n# Priority queues: Herlihy 1991.\nname = \"priority_queue_3\"\nstates = [\"b000\", \"b001\", \"b010\", \"b100\", \"b011\", \"b101\", \"b110\", \"b111\"]\nresponses = [\"ok\", \"empty\", \"0\", \"1\", \"2\"]\n[[operation]]\nname = \"insert0\"\nresponse = [\"ok\", \"ok\", \"ok\", \"ok\", \"ok\", \"ok\", \"ok\", \"ok\"]\nnext = [\"b001\", \"b001\", \"b011\", \"b101\", \"b011\", \"b101\", \"b111\", \"b111\"]\n[[operation]]\nname = \"insert1\"\nresponse = [\"ok\", \"ok\", \"ok\", \"ok\", \"ok\", \"ok\", \"ok\", \"ok\"]\nnext = [\"b010\", \"b011\", \"b010\", \"b110\", \"b011\", \"b111\", \"b110\", \"b111\"]\n[[operation]]\nname = \"insert2\"\nresponse = [\"ok\", \"ok\", \"ok\", \"ok\", \"ok\", \"ok\", \"ok\", \"ok\"]\nnext = [\"b100\", \"b101\", \"b110\", \"b100\", \"b111\", \"b101\", \"b110\", \"b111\"]\n[[operation]]\nname = \"delmin\"\nresponse = [\"empty\", \"0\", \"1\", \"2\", \"0\", \"0\", \"1\", \"0\"]\nnext = [\"b000\", \"b000\", \"b000\", \"b000\", \"b010\", \"b100\", \"b100\", \"b110\"]\n"
   },
   {
    "path": "catalogue/fetch_cons_3",
    "about": {
     "en": "A list of two letters, at most 3 long, to which one is put in front, with the list before as the answer. Literature: infinite (Herlihy 1991). The innermost letter is that of the first; a list that is full stays as it is.",
     "de": "Eine Liste von zwei Buchstaben, höchstens 3 lang, an deren Anfang einer gesetzt wird, mit der Liste davor als Antwort. Literatur: unendlich (Herlihy 1991). Der innerste Buchstabe ist der des ersten; eine volle Liste bleibt, wie sie ist."
    },
    "text": "# A list of two letters, at most 3 long, to which one is put in front, with the list before as the answer.\n# Fetch-and-cons: Herlihy 1991.\nname = \"fetch_cons_3\"\nstates = [\"l\", \"la\", \"lb\", \"laa\", \"lba\", \"lab\", \"lbb\", \"laaa\", \"lbaa\", \"laba\", \"lbba\", \"laab\", \"lbab\", \"labb\", \"lbbb\"]\nresponses = [\"l\", \"la\", \"lb\", \"laa\", \"lba\", \"lab\", \"lbb\", \"laaa\", \"lbaa\", \"laba\", \"lbba\", \"laab\", \"lbab\", \"labb\", \"lbbb\"]\n[[operation]]\nname = \"cons_a\"\nresponse = [\"l\", \"la\", \"lb\", \"laa\", \"lba\", \"lab\", \"lbb\", \"laaa\", \"lbaa\", \"laba\", \"lbba\", \"laab\", \"lbab\", \"labb\", \"lbbb\"]\nnext = [\"la\", \"laa\", \"lab\", \"laaa\", \"laba\", \"laab\", \"labb\", \"laaa\", \"lbaa\", \"laba\", \"lbba\", \"laab\", \"lbab\", \"labb\", \"lbbb\"]\n[[operation]]\nname = \"cons_b\"\nresponse = [\"l\", \"la\", \"lb\", \"laa\", \"lba\", \"lab\", \"lbb\", \"laaa\", \"lbaa\", \"laba\", \"lbba\", \"laab\", \"lbab\", \"labb\", \"lbbb\"]\nnext = [\"lb\", \"lba\", \"lbb\", \"lbaa\", \"lbba\", \"lbab\", \"lbbb\", \"laaa\", \"lbaa\", \"laba\", \"lbba\", \"laab\", \"lbab\", \"labb\", \"lbbb\"]\n"
   },
   {
    "path": "catalogue/add2_tas_sat",
    "about": {
     "en": "One word, from 0 to 7: two is added as far as that goes, or 0 is made 1; the answer is the word before. Literature: infinite for the two operations together (Ellen, Gelashvili, Shavit and Zhu 2016). Each operation alone has 2. From 0: the word is odd for good exactly where a tas was first.",
     "de": "Ein Wort von 0 bis 7: zwei wird addiert, so weit es geht, oder 0 wird zu 1; die Antwort ist das Wort davor. Literatur: unendlich für beide Operationen zusammen (Ellen, Gelashvili, Shavit and Zhu 2016). Jede allein hat 2. Ab 0 ist das Wort genau dann für immer ungerade, wenn ein tas zuerst kam."
    },
    "text": "# One word, from 0 to 7: two is added as far as that goes, or 0 is made 1; the answer is the word before.\n# Ellen, Gelashvili, Shavit and Zhu 2016.\nname = \"add2_tas_sat\"\nstates = [\"0\", \"1\", \"2\", \"3\", \"4\", \"5\", \"6\", \"7\"]\nresponses = [\"0\", \"1\", \"2\", \"3\", \"4\", \"5\", \"6\", \"7\"]\n[[operation]]\nname = \"add2\"\nresponse = [\"0\", \"1\", \"2\", \"3\", \"4\", \"5\", \"6\", \"7\"]\nnext = [\"2\", \"3\", \"4\", \"5\", \"6\", \"7\", \"6\", \"7\"]\n[[operation]]\nname = \"tas\"\nresponse = [\"0\", \"1\", \"2\", \"3\", \"4\", \"5\", \"6\", \"7\"]\nnext = [\"1\", \"1\", \"2\", \"3\", \"4\", \"5\", \"6\", \"7\"]\n"
   },
   {
    "path": "catalogue/add2_tas_mod8",
    "about": {
     "en": "One word modulo 8: two is added, or 0 is made 1; the answer is the word before. Literature: infinite for a word without bound (Ellen, Gelashvili, Shavit and Zhu 2016). One add2 against any number of tas: the word is odd for good exactly where a tas was first. Four add2 would come back to 0.",
     "de": "Ein Wort modulo 8: zwei wird addiert, oder 0 wird zu 1; die Antwort ist das Wort davor. Literatur: unendlich für ein Wort ohne Grenze (Ellen, Gelashvili, Shavit and Zhu 2016). Ein add2 gegen beliebig viele tas: das Wort ist genau dann für immer ungerade, wenn ein tas zuerst kam."
    },
    "text": "# One word modulo 8: two is added, or 0 is made 1; the answer is the word before.\n# After Ellen, Gelashvili, Shavit and Zhu 2016.\nname = \"add2_tas_mod8\"\nstates = [\"0\", \"1\", \"2\", \"3\", \"4\", \"5\", \"6\", \"7\"]\nresponses = [\"0\", \"1\", \"2\", \"3\", \"4\", \"5\", \"6\", \"7\"]\n[[operation]]\nname = \"add2\"\nresponse = [\"0\", \"1\", \"2\", \"3\", \"4\", \"5\", \"6\", \"7\"]\nnext = [\"2\", \"3\", \"4\", \"5\", \"6\", \"7\", \"0\", \"1\"]\n[[operation]]\nname = \"tas\"\nresponse = [\"0\", \"1\", \"2\", \"3\", \"4\", \"5\", \"6\", \"7\"]\nnext = [\"1\", \"1\", \"2\", \"3\", \"4\", \"5\", \"6\", \"7\"]\n"
   },
   {
    "path": "catalogue/checked_add_1_2",
    "about": {
     "en": "A counter from 0 to 3 to which 1 or 2 is added if it fits, with the count before as the answer, or err. No publication known. From 1, one add1 against any number of add2: the count is 2 for good where add1 was first, as 2 more do not fit, and else 3. Without a read, one add2 and two add1 from 1 can tell: who is answered err came after the other team. A third add1 does not fit in either case.",
     "de": "Ein Zähler von 0 bis 3, zu dem 1 oder 2 addiert wird, wenn es passt, mit dem Stand davor oder err als Antwort. Keine Veröffentlichung bekannt. Ab 1 tut einer add1, die anderen add2: der Stand bleibt genau dann 2, wenn add1 zuerst kam, denn 2 mehr passen nicht; sonst ist er 3. Ohne Lesen erkennen es ein add2 und zwei add1, und nicht mehr: ein drittes add1 passt auf keinen Fall."
    },
    "text": "# A counter from 0 to 3 to which 1 or 2 is added if it fits, with the count before as the answer, or err.\n# checked_add of Rust in one step; no publication known.\nname = \"checked_add_1_2\"\nstates = [\"0\", \"1\", \"2\", \"3\"]\nresponses = [\"0\", \"1\", \"2\", \"err\"]\n[[operation]]\nname = \"add1\"\nresponse = [\"0\", \"1\", \"2\", \"err\"]\nnext = [\"1\", \"2\", \"3\", \"3\"]\n[[operation]]\nname = \"add2\"\nresponse = [\"0\", \"1\", \"err\", \"err\"]\nnext = [\"2\", \"3\", \"2\", \"3\"]\n"
   },
   {
    "path": "catalogue/fetch_update_add_1_2",
    "about": {
     "en": "A counter from 0 to 3 to which 1 or 2 is added if it fits, with whether it fits and the count before as the answer. No publication known. From 1, one add1 against any number of add2: the count is 2 for good where add1 was first, as 2 more do not fit, and else 3. A call that is refused is answered the count too, so nobody needs a read.",
     "de": "Ein Zähler von 0 bis 3, zu dem 1 oder 2 addiert wird, wenn es passt; die Antwort sagt, ob es passt, und den Stand davor. Keine Veröffentlichung bekannt. Ab 1 tut einer add1, die anderen add2: der Stand bleibt genau dann 2, wenn add1 zuerst kam; sonst ist er 3. Auch ein abgewiesener Aufruf erfährt den Stand, also braucht niemand zu lesen."
    },
    "used": [
     "Rust",
     "fetch_update",
     "checked_add"
    ],
    "text": "# A counter from 0 to 3 to which 1 or 2 is added if it fits, with whether it fits and the count before as the answer.\n# fetch_update of Rust with checked_add; no publication known.\nname = \"fetch_update_add_1_2\"\nstates = [\"0\", \"1\", \"2\", \"3\"]\nresponses = [\"ok0\", \"ok1\", \"ok2\", \"err3\", \"err2\"]\n[[operation]]\nname = \"add1\"\nresponse = [\"ok0\", \"ok1\", \"ok2\", \"err3\"]\nnext = [\"1\", \"2\", \"3\", \"3\"]\n[[operation]]\nname = \"add2\"\nresponse = [\"ok0\", \"ok1\", \"err2\", \"err3\"]\nnext = [\"2\", \"3\", \"2\", \"3\"]\n"
   },
   {
    "path": "catalogue/weighted_semaphore_3",
    "about": {
     "en": "A semaphore of 3 units: 1 or 2 are given back, or taken at once without waiting, with whether there were so many as the answer. No publication known. From 2 units, one try_acquire_1 against any number of try_acquire_2: one unit is left for good where try_acquire_1 was first, else none. Without a read, one try_acquire_2 and two try_acquire_1 can tell: who is refused came after the other team. A third try_acquire_1 is refused in either case. A semaphore whose calls all take one unit has 2 (semaphore_3).",
     "de": "Ein Semaphor mit 3 Einheiten: 1 oder 2 werden zurückgegeben oder auf einmal ohne Warten genommen, und die Antwort sagt, ob es so viele gab. Keine Veröffentlichung bekannt. Ab 2 Einheiten nimmt einer 1, die anderen nehmen 2: genau dann bleibt für immer eine übrig, wenn der eine zuerst kam. Ohne Lesen erkennen es einer, der 2 nimmt, und zwei, die 1 nehmen, und nicht mehr."
    },
    "used": [
     "Java",
     "tryAcquire(1)",
     "tryAcquire(2)"
    ],
    "text": "# A semaphore of 3 units: 1 or 2 are given back, or taken at once without waiting, with whether there were so many as the answer.\n# tryAcquire of Java's Semaphore, TryAcquire of Go's, try_acquire_many of Tokio's; no publication known.\nname = \"weighted_semaphore_3\"\nstates = [\"0\", \"1\", \"2\", \"3\"]\nresponses = [\"no\", \"yes\", \"ok\"]\n[[operation]]\nname = \"try_acquire_1\"\nresponse = [\"no\", \"yes\", \"yes\", \"yes\"]\nnext = [\"0\", \"0\", \"1\", \"2\"]\n[[operation]]\nname = \"try_acquire_2\"\nresponse = [\"no\", \"no\", \"yes\", \"yes\"]\nnext = [\"0\", \"1\", \"0\", \"1\"]\n[[operation]]\nname = \"release_1\"\nresponse = [\"ok\", \"ok\", \"ok\", \"ok\"]\nnext = [\"1\", \"2\", \"3\", \"3\"]\n[[operation]]\nname = \"release_2\"\nresponse = [\"ok\", \"ok\", \"ok\", \"ok\"]\nnext = [\"2\", \"3\", \"3\", \"3\"]\n"
   },
   {
    "path": "catalogue/rwlock_try",
    "about": {
     "en": "A reader-writer lock with room for two readers, tried without waiting by readers and by writers; nobody unlocks. No publication known. From free, one try_write against any number of try_read: the writer has the lock for good where it was first, else never. Without a read, one writer and two readers can tell: who is refused came after the other team. A third reader is refused in either case, as there is room for two. With room for k readers this makes k + 1, and with room for all no greatest number.",
     "de": "Eine Sperre für Leser und Schreiber mit Platz für zwei Leser, die beide ohne Warten zu nehmen versuchen; niemand gibt sie zurück. Keine Veröffentlichung bekannt. Ein try_write gegen beliebig viele try_read: der Schreiber hat sie genau dann, wenn er zuerst kam. Ohne Lesen erkennen es ein Schreiber und zwei Leser; ein dritter Leser wird auf jeden Fall abgewiesen. Mit Platz für beliebig viele Leser gäbe es auch ohne Lesen keine größte Zahl."
    },
    "used": [
     "Rust",
     "RwLock::try_read",
     "try_write",
     "C11, C++ and POSIX",
     "pthread_rwlock_tryrdlock",
     "trywrlock"
    ],
    "text": "# A reader-writer lock with room for two readers, tried without waiting by readers and by writers; nobody unlocks.\n# try_read and try_write of Rust's RwLock, tryrdlock and trywrlock of POSIX; no publication known.\nname = \"rwlock_try\"\nstates = [\"free\", \"r1\", \"r2\", \"w\"]\nresponses = [\"yes\", \"no\"]\n[[operation]]\nname = \"try_read\"\nresponse = [\"yes\", \"yes\", \"no\", \"no\"]\nnext = [\"r1\", \"r2\", \"r2\", \"w\"]\n[[operation]]\nname = \"try_write\"\nresponse = [\"yes\", \"no\", \"no\", \"no\"]\nnext = [\"w\", \"r1\", \"r2\", \"w\"]\n"
   },
   {
    "path": "catalogue/arc_drop_upgrade",
    "about": {
     "en": "The strong count of an Arc, up to 3: drop answers whether it was the last, and upgrade whether there is one. No publication known. From 1, one drop against any number of upgrade: the count is 0 for good where drop was first, and else at least 1. The answers tell too: drop was the last, or upgrade finds one, exactly where that team was first. In this protocol only the owner drops, and only holders of a Weak upgrade.",
     "de": "Der starke Zähler eines Arc, bis 3: drop antwortet, ob es das letzte war, upgrade, ob es noch eines gibt. Keine Veröffentlichung bekannt. Ab 1 ein drop gegen beliebig viele upgrade: der Zähler bleibt genau dann 0, wenn drop zuerst kam, sonst ist er mindestens 1. Auch die Antworten sagen es. Nur der Besitzer tut drop, und nur wer einen Weak hat, tut upgrade."
    },
    "used": [
     "Rust",
     "drop",
     "Arc",
     "Weak::upgrade",
     "C11, C++ and POSIX",
     "shared_ptr",
     "weak_ptr::lock"
    ],
    "text": "# The strong count of an Arc, up to 3: drop answers whether it was the last, and upgrade whether there is one.\n# drop of Rust's Arc and upgrade of its Weak, shared_ptr and lock of weak_ptr in C++; no publication known.\nname = \"arc_drop_upgrade\"\nstates = [\"0\", \"1\", \"2\", \"3\"]\nresponses = [\"ok\", \"last\", \"none\", \"some\"]\n[[operation]]\nname = \"drop\"\nresponse = [\"ok\", \"last\", \"ok\", \"ok\"]\nnext = [\"0\", \"0\", \"1\", \"2\"]\n[[operation]]\nname = \"upgrade\"\nresponse = [\"none\", \"some\", \"some\", \"some\"]\nnext = [\"0\", \"2\", \"3\", \"3\"]\n"
   },
   {
    "path": "catalogue/dec_mul",
    "about": {
     "en": "One word from -1 to 4 that starts at 1: one is taken away, or it is multiplied by 4; both answer nothing. Literature: infinite for the two operations together (Ellen, Gelashvili, Shavit and Zhu 2016). Each operation alone has 1. From 1, one dec against any number of mul: the word is 0 for good where dec was first, else it stays positive. Without a read nothing is answered; the literature's memory is read.",
     "de": "Ein Wort von -1 bis 4, das bei 1 beginnt: eins wird abgezogen, oder es wird mit 4 multipliziert; beide antworten nichts. Literatur: unendlich für beide Operationen zusammen (Ellen, Gelashvili, Shavit and Zhu 2016). Jede allein hat 1. Ab 1 ein dec gegen beliebig viele mul: das Wort bleibt genau dann 0, wenn dec zuerst kam, sonst positiv. In der Literatur wird der Speicher gelesen; ohne Lesen erfährt niemand etwas."
    },
    "text": "# One word from -1 to 4 that starts at 1: one is taken away, or it is multiplied by 4; both answer nothing.\n# Ellen, Gelashvili, Shavit and Zhu 2016.\nname = \"dec_mul\"\nstates = [\"1\", \"0\", \"4\", \"m1\", \"3\", \"2\"]\nresponses = [\"ok\"]\n[[operation]]\nname = \"dec\"\nresponse = [\"ok\", \"ok\", \"ok\", \"ok\", \"ok\", \"ok\"]\nnext = [\"0\", \"m1\", \"3\", \"m1\", \"2\", \"1\"]\n[[operation]]\nname = \"mul\"\nresponse = [\"ok\", \"ok\", \"ok\", \"ok\", \"ok\", \"ok\"]\nnext = [\"4\", \"0\", \"4\", \"m1\", \"4\", \"4\"]\n"
   },
   {
    "path": "catalogue/memory_move_2",
    "about": {
     "en": "Two bits of a memory, of which one is copied onto the other. Literature: infinite (Herlihy 1991). From 01 the first move makes 00 or 11, and no later one changes it. Without a read nothing is answered; the literature's memory is read.",
     "de": "Zwei Bits eines Speichers, von denen eines auf das andere kopiert wird. Literatur: unendlich (Herlihy 1991). Ab 01 macht das erste Kopieren 00 oder 11 daraus, und kein späteres ändert es. In der Literatur wird der Speicher gelesen; ohne Lesen erfährt niemand etwas."
    },
    "text": "# Two bits of a memory, of which one is copied onto the other.\n# Memory-to-memory move: Herlihy 1991.\nname = \"memory_move_2\"\nstates = [\"m00\", \"m01\", \"m10\", \"m11\"]\nresponses = [\"ok\"]\n[[operation]]\nname = \"move_0_1\"\nresponse = [\"ok\", \"ok\", \"ok\", \"ok\"]\nnext = [\"m00\", \"m00\", \"m11\", \"m11\"]\n[[operation]]\nname = \"move_1_0\"\nresponse = [\"ok\", \"ok\", \"ok\", \"ok\"]\nnext = [\"m00\", \"m11\", \"m00\", \"m11\"]\n"
   }
  ]
 },
 {
  "name": {
   "en": "Two instructions on one word",
   "de": "Zwei Befehle auf einem Wort"
  },
  "types": [
   {
    "path": "catalogue/add1_or2_2bit",
    "about": {
     "en": "Two bits, to which 1 is added, or of which the second lowest is set, with the bits before as the answer. No publication known. From 1, one addition against ors. If it is first, the word stays 2. If an or is first, the word is 3, and after the addition and further ors 4 or 6: on three bits and more never 2. On two bits 4 is 0, and the second or after the addition leaves 2, so only two ors are possible.",
     "de": "2 Bits, zu denen 1 addiert wird oder von denen das zweitunterste gesetzt wird, mit den Bits davor als Antwort. Keine Veröffentlichung bekannt. Ab 1 eine Addition gegen mehrere Oder: kommt sie zuerst, bleibt das Wort 2, sonst ist es 3, und nach der Addition und weiteren Oder 4 oder 6, ab drei Bits also nie 2. Bei zwei Bits ist 4 die 0, und nur zwei Oder sind möglich: dort ist die Zahl 3, ab drei Bits unendlich."
    },
    "text": "# Two bits, to which 1 is added, or of which the second lowest is set, with the bits before as the answer.\n# No publication known.\nname = \"add1_or2_2bit\"\nstates = [\"b00\", \"b01\", \"b10\", \"b11\"]\nresponses = [\"b00\", \"b01\", \"b10\", \"b11\"]\n[[operation]]\nname = \"add1\"\nresponse = [\"b00\", \"b01\", \"b10\", \"b11\"]\nnext = [\"b01\", \"b10\", \"b11\", \"b00\"]\n[[operation]]\nname = \"or2\"\nresponse = [\"b00\", \"b01\", \"b10\", \"b11\"]\nnext = [\"b10\", \"b11\", \"b10\", \"b11\"]\n"
   },
   {
    "path": "catalogue/add1_or2_3bit",
    "about": {
     "en": "Three bits, to which 1 is added, or of which the second lowest is set, with the bits before as the answer. No publication known. From 1, one addition against ors. If it is first, the word stays 2. If an or is first, the word is 3, and after the addition and further ors 4 or 6: on three bits and more never 2. On two bits 4 is 0, and the second or after the addition leaves 2, so only two ors are possible.",
     "de": "3 Bits, zu denen 1 addiert wird oder von denen das zweitunterste gesetzt wird, mit den Bits davor als Antwort. Keine Veröffentlichung bekannt. Ab 1 eine Addition gegen mehrere Oder: kommt sie zuerst, bleibt das Wort 2, sonst ist es 3, und nach der Addition und weiteren Oder 4 oder 6, ab drei Bits also nie 2. Bei zwei Bits ist 4 die 0, und nur zwei Oder sind möglich: dort ist die Zahl 3, ab drei Bits unendlich."
    },
    "text": "# Three bits, to which 1 is added, or of which the second lowest is set, with the bits before as the answer.\n# No publication known.\nname = \"add1_or2_3bit\"\nstates = [\"b000\", \"b001\", \"b010\", \"b011\", \"b100\", \"b101\", \"b110\", \"b111\"]\nresponses = [\"b000\", \"b001\", \"b010\", \"b011\", \"b100\", \"b101\", \"b110\", \"b111\"]\n[[operation]]\nname = \"add1\"\nresponse = [\"b000\", \"b001\", \"b010\", \"b011\", \"b100\", \"b101\", \"b110\", \"b111\"]\nnext = [\"b001\", \"b010\", \"b011\", \"b100\", \"b101\", \"b110\", \"b111\", \"b000\"]\n[[operation]]\nname = \"or2\"\nresponse = [\"b000\", \"b001\", \"b010\", \"b011\", \"b100\", \"b101\", \"b110\", \"b111\"]\nnext = [\"b010\", \"b011\", \"b010\", \"b011\", \"b110\", \"b111\", \"b110\", \"b111\"]\n"
   },
   {
    "path": "catalogue/add1_or2_4bit",
    "about": {
     "en": "Four bits, to which 1 is added, or of which the second lowest is set, with the bits before as the answer. No publication known. From 1, one addition against ors. If it is first, the word stays 2. If an or is first, the word is 3, and after the addition and further ors 4 or 6: on three bits and more never 2. On two bits 4 is 0, and the second or after the addition leaves 2, so only two ors are possible.",
     "de": "4 Bits, zu denen 1 addiert wird oder von denen das zweitunterste gesetzt wird, mit den Bits davor als Antwort. Keine Veröffentlichung bekannt. Ab 1 eine Addition gegen mehrere Oder: kommt sie zuerst, bleibt das Wort 2, sonst ist es 3, und nach der Addition und weiteren Oder 4 oder 6, ab drei Bits also nie 2. Bei zwei Bits ist 4 die 0, und nur zwei Oder sind möglich: dort ist die Zahl 3, ab drei Bits unendlich."
    },
    "text": "# Four bits, to which 1 is added, or of which the second lowest is set, with the bits before as the answer.\n# No publication known.\nname = \"add1_or2_4bit\"\nstates = [\"b0000\", \"b0001\", \"b0010\", \"b0011\", \"b0100\", \"b0101\", \"b0110\", \"b0111\", \"b1000\", \"b1001\", \"b1010\", \"b1011\", \"b1100\", \"b1101\", \"b1110\", \"b1111\"]\nresponses = [\"b0000\", \"b0001\", \"b0010\", \"b0011\", \"b0100\", \"b0101\", \"b0110\", \"b0111\", \"b1000\", \"b1001\", \"b1010\", \"b1011\", \"b1100\", \"b1101\", \"b1110\", \"b1111\"]\n[[operation]]\nname = \"add1\"\nresponse = [\"b0000\", \"b0001\", \"b0010\", \"b0011\", \"b0100\", \"b0101\", \"b0110\", \"b0111\", \"b1000\", \"b1001\", \"b1010\", \"b1011\", \"b1100\", \"b1101\", \"b1110\", \"b1111\"]\nnext = [\"b0001\", \"b0010\", \"b0011\", \"b0100\", \"b0101\", \"b0110\", \"b0111\", \"b1000\", \"b1001\", \"b1010\", \"b1011\", \"b1100\", \"b1101\", \"b1110\", \"b1111\", \"b0000\"]\n[[operation]]\nname = \"or2\"\nresponse = [\"b0000\", \"b0001\", \"b0010\", \"b0011\", \"b0100\", \"b0101\", \"b0110\", \"b0111\", \"b1000\", \"b1001\", \"b1010\", \"b1011\", \"b1100\", \"b1101\", \"b1110\", \"b1111\"]\nnext = [\"b0010\", \"b0011\", \"b0010\", \"b0011\", \"b0110\", \"b0111\", \"b0110\", \"b0111\", \"b1010\", \"b1011\", \"b1010\", \"b1011\", \"b1110\", \"b1111\", \"b1110\", \"b1111\"]\n"
   },
   {
    "path": "catalogue/add1_top_3bit",
    "about": {
     "en": "Three bits, to which 1 is added, or of which the top one is set, with the bits before as the answer. No publication known. On k bits the number is 2^(k-1) + 1, by the law that stands in catalogue/README.md: one or against 2^(k-1) additions.",
     "de": "3 Bits, zu denen 1 addiert wird oder von denen das oberste gesetzt wird, mit den Bits davor als Antwort. Keine Veröffentlichung bekannt. Bei k Bits ist die Zahl 2^(k-1) + 1: ein Oder gegen 2^(k-1) Additionen. catalogue/README.md hat den Beweis."
    },
    "text": "# Three bits, to which 1 is added, or of which the top one is set, with the bits before as the answer.\n# No publication known.\nname = \"add1_top_3bit\"\nstates = [\"b000\", \"b001\", \"b010\", \"b011\", \"b100\", \"b101\", \"b110\", \"b111\"]\nresponses = [\"b000\", \"b001\", \"b010\", \"b011\", \"b100\", \"b101\", \"b110\", \"b111\"]\n[[operation]]\nname = \"add1\"\nresponse = [\"b000\", \"b001\", \"b010\", \"b011\", \"b100\", \"b101\", \"b110\", \"b111\"]\nnext = [\"b001\", \"b010\", \"b011\", \"b100\", \"b101\", \"b110\", \"b111\", \"b000\"]\n[[operation]]\nname = \"or4\"\nresponse = [\"b000\", \"b001\", \"b010\", \"b011\", \"b100\", \"b101\", \"b110\", \"b111\"]\nnext = [\"b100\", \"b101\", \"b110\", \"b111\", \"b100\", \"b101\", \"b110\", \"b111\"]\n"
   },
   {
    "path": "catalogue/add1_top_4bit",
    "about": {
     "en": "Four bits, to which 1 is added, or of which the top one is set, with the bits before as the answer. No publication known. On k bits the number is 2^(k-1) + 1, by the law that stands in catalogue/README.md: one or against 2^(k-1) additions.",
     "de": "4 Bits, zu denen 1 addiert wird oder von denen das oberste gesetzt wird, mit den Bits davor als Antwort. Keine Veröffentlichung bekannt. Bei k Bits ist die Zahl 2^(k-1) + 1: ein Oder gegen 2^(k-1) Additionen. catalogue/README.md hat den Beweis."
    },
    "text": "# Four bits, to which 1 is added, or of which the top one is set, with the bits before as the answer.\n# No publication known.\nname = \"add1_top_4bit\"\nstates = [\"b0000\", \"b0001\", \"b0010\", \"b0011\", \"b0100\", \"b0101\", \"b0110\", \"b0111\", \"b1000\", \"b1001\", \"b1010\", \"b1011\", \"b1100\", \"b1101\", \"b1110\", \"b1111\"]\nresponses = [\"b0000\", \"b0001\", \"b0010\", \"b0011\", \"b0100\", \"b0101\", \"b0110\", \"b0111\", \"b1000\", \"b1001\", \"b1010\", \"b1011\", \"b1100\", \"b1101\", \"b1110\", \"b1111\"]\n[[operation]]\nname = \"add1\"\nresponse = [\"b0000\", \"b0001\", \"b0010\", \"b0011\", \"b0100\", \"b0101\", \"b0110\", \"b0111\", \"b1000\", \"b1001\", \"b1010\", \"b1011\", \"b1100\", \"b1101\", \"b1110\", \"b1111\"]\nnext = [\"b0001\", \"b0010\", \"b0011\", \"b0100\", \"b0101\", \"b0110\", \"b0111\", \"b1000\", \"b1001\", \"b1010\", \"b1011\", \"b1100\", \"b1101\", \"b1110\", \"b1111\", \"b0000\"]\n[[operation]]\nname = \"or8\"\nresponse = [\"b0000\", \"b0001\", \"b0010\", \"b0011\", \"b0100\", \"b0101\", \"b0110\", \"b0111\", \"b1000\", \"b1001\", \"b1010\", \"b1011\", \"b1100\", \"b1101\", \"b1110\", \"b1111\"]\nnext = [\"b1000\", \"b1001\", \"b1010\", \"b1011\", \"b1100\", \"b1101\", \"b1110\", \"b1111\", \"b1000\", \"b1001\", \"b1010\", \"b1011\", \"b1100\", \"b1101\", \"b1110\", \"b1111\"]\n"
   },
   {
    "path": "catalogue/add1_clear_2bit",
    "about": {
     "en": "Two bits, to which 1 is added, or of which the lowest is cleared, with the bits before as the answer. No publication known. From 1, one addition against any number that clear: if the addition is first, the word stays 2; else it is 0 or 1.",
     "de": "2 Bits, zu denen 1 addiert wird oder von denen das unterste gelöscht wird, mit den Bits davor als Antwort. Keine Veröffentlichung bekannt. Ab 1 eine Addition gegen beliebig viele, die löschen: kommt die Addition zuerst, bleibt das Wort 2, sonst ist es 0 oder 1."
    },
    "text": "# Two bits, to which 1 is added, or of which the lowest is cleared, with the bits before as the answer.\n# No publication known.\nname = \"add1_clear_2bit\"\nstates = [\"b00\", \"b01\", \"b10\", \"b11\"]\nresponses = [\"b00\", \"b01\", \"b10\", \"b11\"]\n[[operation]]\nname = \"add1\"\nresponse = [\"b00\", \"b01\", \"b10\", \"b11\"]\nnext = [\"b01\", \"b10\", \"b11\", \"b00\"]\n[[operation]]\nname = \"and2\"\nresponse = [\"b00\", \"b01\", \"b10\", \"b11\"]\nnext = [\"b00\", \"b00\", \"b10\", \"b10\"]\n"
   },
   {
    "path": "catalogue/add1_clear_3bit",
    "about": {
     "en": "Three bits, to which 1 is added, or of which the lowest is cleared, with the bits before as the answer. No publication known. From 1, one addition against any number that clear: if the addition is first, the word stays 2; else it is 0 or 1.",
     "de": "3 Bits, zu denen 1 addiert wird oder von denen das unterste gelöscht wird, mit den Bits davor als Antwort. Keine Veröffentlichung bekannt. Ab 1 eine Addition gegen beliebig viele, die löschen: kommt die Addition zuerst, bleibt das Wort 2, sonst ist es 0 oder 1."
    },
    "text": "# Three bits, to which 1 is added, or of which the lowest is cleared, with the bits before as the answer.\n# No publication known.\nname = \"add1_clear_3bit\"\nstates = [\"b000\", \"b001\", \"b010\", \"b011\", \"b100\", \"b101\", \"b110\", \"b111\"]\nresponses = [\"b000\", \"b001\", \"b010\", \"b011\", \"b100\", \"b101\", \"b110\", \"b111\"]\n[[operation]]\nname = \"add1\"\nresponse = [\"b000\", \"b001\", \"b010\", \"b011\", \"b100\", \"b101\", \"b110\", \"b111\"]\nnext = [\"b001\", \"b010\", \"b011\", \"b100\", \"b101\", \"b110\", \"b111\", \"b000\"]\n[[operation]]\nname = \"and6\"\nresponse = [\"b000\", \"b001\", \"b010\", \"b011\", \"b100\", \"b101\", \"b110\", \"b111\"]\nnext = [\"b000\", \"b000\", \"b010\", \"b010\", \"b100\", \"b100\", \"b110\", \"b110\"]\n"
   },
   {
    "path": "catalogue/add1_clear_4bit",
    "about": {
     "en": "Four bits, to which 1 is added, or of which the lowest is cleared, with the bits before as the answer. No publication known. From 1, one addition against any number that clear: if the addition is first, the word stays 2; else it is 0 or 1.",
     "de": "4 Bits, zu denen 1 addiert wird oder von denen das unterste gelöscht wird, mit den Bits davor als Antwort. Keine Veröffentlichung bekannt. Ab 1 eine Addition gegen beliebig viele, die löschen: kommt die Addition zuerst, bleibt das Wort 2, sonst ist es 0 oder 1."
    },
    "used": [
     "ARM with LSE",
     "LDADD",
     "LDCLR"
    ],
    "text": "# Four bits, to which 1 is added, or of which the lowest is cleared, with the bits before as the answer.\n# No publication known.\nname = \"add1_clear_4bit\"\nstates = [\"b0000\", \"b0001\", \"b0010\", \"b0011\", \"b0100\", \"b0101\", \"b0110\", \"b0111\", \"b1000\", \"b1001\", \"b1010\", \"b1011\", \"b1100\", \"b1101\", \"b1110\", \"b1111\"]\nresponses = [\"b0000\", \"b0001\", \"b0010\", \"b0011\", \"b0100\", \"b0101\", \"b0110\", \"b0111\", \"b1000\", \"b1001\", \"b1010\", \"b1011\", \"b1100\", \"b1101\", \"b1110\", \"b1111\"]\n[[operation]]\nname = \"add1\"\nresponse = [\"b0000\", \"b0001\", \"b0010\", \"b0011\", \"b0100\", \"b0101\", \"b0110\", \"b0111\", \"b1000\", \"b1001\", \"b1010\", \"b1011\", \"b1100\", \"b1101\", \"b1110\", \"b1111\"]\nnext = [\"b0001\", \"b0010\", \"b0011\", \"b0100\", \"b0101\", \"b0110\", \"b0111\", \"b1000\", \"b1001\", \"b1010\", \"b1011\", \"b1100\", \"b1101\", \"b1110\", \"b1111\", \"b0000\"]\n[[operation]]\nname = \"and14\"\nresponse = [\"b0000\", \"b0001\", \"b0010\", \"b0011\", \"b0100\", \"b0101\", \"b0110\", \"b0111\", \"b1000\", \"b1001\", \"b1010\", \"b1011\", \"b1100\", \"b1101\", \"b1110\", \"b1111\"]\nnext = [\"b0000\", \"b0000\", \"b0010\", \"b0010\", \"b0100\", \"b0100\", \"b0110\", \"b0110\", \"b1000\", \"b1000\", \"b1010\", \"b1010\", \"b1100\", \"b1100\", \"b1110\", \"b1110\"]\n"
   },
   {
    "path": "catalogue/add2_max1_2bit",
    "about": {
     "en": "Two bits, to which 2 is added, or which are made 1 if they are 0, with the bits before as the answer. No publication known. From 0, one addition against any number of maxima: if the addition is first, the word stays 2; else it is 1 or 3.",
     "de": "2 Bits, zu denen 2 addiert wird oder die 1 werden, wenn sie 0 sind, mit den Bits davor als Antwort. Keine Veröffentlichung bekannt. Ab 0 eine Addition gegen beliebig viele Maxima: kommt die Addition zuerst, bleibt das Wort 2, sonst ist es 1 oder 3."
    },
    "text": "# Two bits, to which 2 is added, or which are made 1 if they are 0, with the bits before as the answer.\n# No publication known.\nname = \"add2_max1_2bit\"\nstates = [\"b00\", \"b01\", \"b10\", \"b11\"]\nresponses = [\"b00\", \"b01\", \"b10\", \"b11\"]\n[[operation]]\nname = \"add2\"\nresponse = [\"b00\", \"b01\", \"b10\", \"b11\"]\nnext = [\"b10\", \"b11\", \"b00\", \"b01\"]\n[[operation]]\nname = \"max1\"\nresponse = [\"b00\", \"b01\", \"b10\", \"b11\"]\nnext = [\"b01\", \"b01\", \"b10\", \"b11\"]\n"
   },
   {
    "path": "catalogue/add2_max1_3bit",
    "about": {
     "en": "Three bits, to which 2 is added, or which are made 1 if they are 0, with the bits before as the answer. No publication known. From 0, one addition against any number of maxima: if the addition is first, the word stays 2; else it is 1 or 3.",
     "de": "3 Bits, zu denen 2 addiert wird oder die 1 werden, wenn sie 0 sind, mit den Bits davor als Antwort. Keine Veröffentlichung bekannt. Ab 0 eine Addition gegen beliebig viele Maxima: kommt die Addition zuerst, bleibt das Wort 2, sonst ist es 1 oder 3."
    },
    "text": "# Three bits, to which 2 is added, or which are made 1 if they are 0, with the bits before as the answer.\n# No publication known.\nname = \"add2_max1_3bit\"\nstates = [\"b000\", \"b001\", \"b010\", \"b011\", \"b100\", \"b101\", \"b110\", \"b111\"]\nresponses = [\"b000\", \"b001\", \"b010\", \"b011\", \"b100\", \"b101\", \"b110\", \"b111\"]\n[[operation]]\nname = \"add2\"\nresponse = [\"b000\", \"b001\", \"b010\", \"b011\", \"b100\", \"b101\", \"b110\", \"b111\"]\nnext = [\"b010\", \"b011\", \"b100\", \"b101\", \"b110\", \"b111\", \"b000\", \"b001\"]\n[[operation]]\nname = \"max1\"\nresponse = [\"b000\", \"b001\", \"b010\", \"b011\", \"b100\", \"b101\", \"b110\", \"b111\"]\nnext = [\"b001\", \"b001\", \"b010\", \"b011\", \"b100\", \"b101\", \"b110\", \"b111\"]\n"
   },
   {
    "path": "catalogue/add2_max1_4bit",
    "about": {
     "en": "Four bits, to which 2 is added, or which are made 1 if they are 0, with the bits before as the answer. No publication known. From 0, one addition against any number of maxima: if the addition is first, the word stays 2; else it is 1 or 3.",
     "de": "4 Bits, zu denen 2 addiert wird oder die 1 werden, wenn sie 0 sind, mit den Bits davor als Antwort. Keine Veröffentlichung bekannt. Ab 0 eine Addition gegen beliebig viele Maxima: kommt die Addition zuerst, bleibt das Wort 2, sonst ist es 1 oder 3."
    },
    "text": "# Four bits, to which 2 is added, or which are made 1 if they are 0, with the bits before as the answer.\n# No publication known.\nname = \"add2_max1_4bit\"\nstates = [\"b0000\", \"b0001\", \"b0010\", \"b0011\", \"b0100\", \"b0101\", \"b0110\", \"b0111\", \"b1000\", \"b1001\", \"b1010\", \"b1011\", \"b1100\", \"b1101\", \"b1110\", \"b1111\"]\nresponses = [\"b0000\", \"b0001\", \"b0010\", \"b0011\", \"b0100\", \"b0101\", \"b0110\", \"b0111\", \"b1000\", \"b1001\", \"b1010\", \"b1011\", \"b1100\", \"b1101\", \"b1110\", \"b1111\"]\n[[operation]]\nname = \"add2\"\nresponse = [\"b0000\", \"b0001\", \"b0010\", \"b0011\", \"b0100\", \"b0101\", \"b0110\", \"b0111\", \"b1000\", \"b1001\", \"b1010\", \"b1011\", \"b1100\", \"b1101\", \"b1110\", \"b1111\"]\nnext = [\"b0010\", \"b0011\", \"b0100\", \"b0101\", \"b0110\", \"b0111\", \"b1000\", \"b1001\", \"b1010\", \"b1011\", \"b1100\", \"b1101\", \"b1110\", \"b1111\", \"b0000\", \"b0001\"]\n[[operation]]\nname = \"max1\"\nresponse = [\"b0000\", \"b0001\", \"b0010\", \"b0011\", \"b0100\", \"b0101\", \"b0110\", \"b0111\", \"b1000\", \"b1001\", \"b1010\", \"b1011\", \"b1100\", \"b1101\", \"b1110\", \"b1111\"]\nnext = [\"b0001\", \"b0001\", \"b0010\", \"b0011\", \"b0100\", \"b0101\", \"b0110\", \"b0111\", \"b1000\", \"b1001\", \"b1010\", \"b1011\", \"b1100\", \"b1101\", \"b1110\", \"b1111\"]\n"
   },
   {
    "path": "catalogue/or2_max1_2bit",
    "about": {
     "en": "Two bits, of which the second lowest is set, or which are made 1 if they are 0, with the bits before as the answer. No publication known. From 0, one or against any number of maxima: if the or is first, the word stays 2; else it is 1 or 3.",
     "de": "2 Bits, von denen das zweitunterste gesetzt wird oder die 1 werden, wenn sie 0 sind, mit den Bits davor als Antwort. Keine Veröffentlichung bekannt. Ab 0 ein Oder gegen beliebig viele Maxima: kommt das Oder zuerst, bleibt das Wort 2, sonst ist es 1 oder 3."
    },
    "text": "# Two bits, of which the second lowest is set, or which are made 1 if they are 0, with the bits before as the answer.\n# No publication known.\nname = \"or2_max1_2bit\"\nstates = [\"b00\", \"b01\", \"b10\", \"b11\"]\nresponses = [\"b00\", \"b01\", \"b10\", \"b11\"]\n[[operation]]\nname = \"or2\"\nresponse = [\"b00\", \"b01\", \"b10\", \"b11\"]\nnext = [\"b10\", \"b11\", \"b10\", \"b11\"]\n[[operation]]\nname = \"max1\"\nresponse = [\"b00\", \"b01\", \"b10\", \"b11\"]\nnext = [\"b01\", \"b01\", \"b10\", \"b11\"]\n"
   },
   {
    "path": "catalogue/or2_max1_3bit",
    "about": {
     "en": "Three bits, of which the second lowest is set, or which are made 1 if they are 0, with the bits before as the answer. No publication known. From 0, one or against any number of maxima: if the or is first, the word stays 2; else it is 1 or 3.",
     "de": "3 Bits, von denen das zweitunterste gesetzt wird oder die 1 werden, wenn sie 0 sind, mit den Bits davor als Antwort. Keine Veröffentlichung bekannt. Ab 0 ein Oder gegen beliebig viele Maxima: kommt das Oder zuerst, bleibt das Wort 2, sonst ist es 1 oder 3."
    },
    "text": "# Three bits, of which the second lowest is set, or which are made 1 if they are 0, with the bits before as the answer.\n# No publication known.\nname = \"or2_max1_3bit\"\nstates = [\"b000\", \"b001\", \"b010\", \"b011\", \"b100\", \"b101\", \"b110\", \"b111\"]\nresponses = [\"b000\", \"b001\", \"b010\", \"b011\", \"b100\", \"b101\", \"b110\", \"b111\"]\n[[operation]]\nname = \"or2\"\nresponse = [\"b000\", \"b001\", \"b010\", \"b011\", \"b100\", \"b101\", \"b110\", \"b111\"]\nnext = [\"b010\", \"b011\", \"b010\", \"b011\", \"b110\", \"b111\", \"b110\", \"b111\"]\n[[operation]]\nname = \"max1\"\nresponse = [\"b000\", \"b001\", \"b010\", \"b011\", \"b100\", \"b101\", \"b110\", \"b111\"]\nnext = [\"b001\", \"b001\", \"b010\", \"b011\", \"b100\", \"b101\", \"b110\", \"b111\"]\n"
   },
   {
    "path": "catalogue/or2_max1_4bit",
    "about": {
     "en": "Four bits, of which the second lowest is set, or which are made 1 if they are 0, with the bits before as the answer. No publication known. From 0, one or against any number of maxima: if the or is first, the word stays 2; else it is 1 or 3.",
     "de": "4 Bits, von denen das zweitunterste gesetzt wird oder die 1 werden, wenn sie 0 sind, mit den Bits davor als Antwort. Keine Veröffentlichung bekannt. Ab 0 ein Oder gegen beliebig viele Maxima: kommt das Oder zuerst, bleibt das Wort 2, sonst ist es 1 oder 3."
    },
    "text": "# Four bits, of which the second lowest is set, or which are made 1 if they are 0, with the bits before as the answer.\n# No publication known.\nname = \"or2_max1_4bit\"\nstates = [\"b0000\", \"b0001\", \"b0010\", \"b0011\", \"b0100\", \"b0101\", \"b0110\", \"b0111\", \"b1000\", \"b1001\", \"b1010\", \"b1011\", \"b1100\", \"b1101\", \"b1110\", \"b1111\"]\nresponses = [\"b0000\", \"b0001\", \"b0010\", \"b0011\", \"b0100\", \"b0101\", \"b0110\", \"b0111\", \"b1000\", \"b1001\", \"b1010\", \"b1011\", \"b1100\", \"b1101\", \"b1110\", \"b1111\"]\n[[operation]]\nname = \"or2\"\nresponse = [\"b0000\", \"b0001\", \"b0010\", \"b0011\", \"b0100\", \"b0101\", \"b0110\", \"b0111\", \"b1000\", \"b1001\", \"b1010\", \"b1011\", \"b1100\", \"b1101\", \"b1110\", \"b1111\"]\nnext = [\"b0010\", \"b0011\", \"b0010\", \"b0011\", \"b0110\", \"b0111\", \"b0110\", \"b0111\", \"b1010\", \"b1011\", \"b1010\", \"b1011\", \"b1110\", \"b1111\", \"b1110\", \"b1111\"]\n[[operation]]\nname = \"max1\"\nresponse = [\"b0000\", \"b0001\", \"b0010\", \"b0011\", \"b0100\", \"b0101\", \"b0110\", \"b0111\", \"b1000\", \"b1001\", \"b1010\", \"b1011\", \"b1100\", \"b1101\", \"b1110\", \"b1111\"]\nnext = [\"b0001\", \"b0001\", \"b0010\", \"b0011\", \"b0100\", \"b0101\", \"b0110\", \"b0111\", \"b1000\", \"b1001\", \"b1010\", \"b1011\", \"b1100\", \"b1101\", \"b1110\", \"b1111\"]\n"
   },
   {
    "path": "catalogue/xor3_or1_2bit",
    "about": {
     "en": "Two bits, of which the lowest two are turned over, or the lowest is set, with the bits before as the answer. No publication known. They change the lowest two bits only, so wider words have no more. From 0, one xor against two ors: if it is first, the word stays 3, and else an or is answered 0, 1 or 2. Why not more stands in catalogue/README.md.",
     "de": "2 Bits, von denen die untersten zwei umgekehrt werden oder das unterste gesetzt wird, mit den Bits davor als Antwort. Keine Veröffentlichung bekannt. Sie ändern nur die untersten zwei Bits, also haben breitere Wörter keine größere Zahl. Ab 0 ein Xor gegen zwei Oder: kommt es zuerst, bleibt das Wort 3, sonst bekommt ein Oder 0, 1 oder 2 zur Antwort."
    },
    "text": "# Two bits, of which the lowest two are turned over, or the lowest is set, with the bits before as the answer.\n# No publication known.\nname = \"xor3_or1_2bit\"\nstates = [\"b00\", \"b01\", \"b10\", \"b11\"]\nresponses = [\"b00\", \"b01\", \"b10\", \"b11\"]\n[[operation]]\nname = \"xor3\"\nresponse = [\"b00\", \"b01\", \"b10\", \"b11\"]\nnext = [\"b11\", \"b10\", \"b01\", \"b00\"]\n[[operation]]\nname = \"or1\"\nresponse = [\"b00\", \"b01\", \"b10\", \"b11\"]\nnext = [\"b01\", \"b01\", \"b11\", \"b11\"]\n"
   },
   {
    "path": "catalogue/xor3_or1_3bit",
    "about": {
     "en": "Three bits, of which the lowest two are turned over, or the lowest is set, with the bits before as the answer. No publication known. They change the lowest two bits only, so wider words have no more. From 0, one xor against two ors: if it is first, the word stays 3, and else an or is answered 0, 1 or 2. Why not more stands in catalogue/README.md.",
     "de": "3 Bits, von denen die untersten zwei umgekehrt werden oder das unterste gesetzt wird, mit den Bits davor als Antwort. Keine Veröffentlichung bekannt. Sie ändern nur die untersten zwei Bits, also haben breitere Wörter keine größere Zahl. Ab 0 ein Xor gegen zwei Oder: kommt es zuerst, bleibt das Wort 3, sonst bekommt ein Oder 0, 1 oder 2 zur Antwort."
    },
    "text": "# Three bits, of which the lowest two are turned over, or the lowest is set, with the bits before as the answer.\n# No publication known.\nname = \"xor3_or1_3bit\"\nstates = [\"b000\", \"b001\", \"b010\", \"b011\", \"b100\", \"b101\", \"b110\", \"b111\"]\nresponses = [\"b000\", \"b001\", \"b010\", \"b011\", \"b100\", \"b101\", \"b110\", \"b111\"]\n[[operation]]\nname = \"xor3\"\nresponse = [\"b000\", \"b001\", \"b010\", \"b011\", \"b100\", \"b101\", \"b110\", \"b111\"]\nnext = [\"b011\", \"b010\", \"b001\", \"b000\", \"b111\", \"b110\", \"b101\", \"b100\"]\n[[operation]]\nname = \"or1\"\nresponse = [\"b000\", \"b001\", \"b010\", \"b011\", \"b100\", \"b101\", \"b110\", \"b111\"]\nnext = [\"b001\", \"b001\", \"b011\", \"b011\", \"b101\", \"b101\", \"b111\", \"b111\"]\n"
   },
   {
    "path": "catalogue/xor3_or1_4bit",
    "about": {
     "en": "Four bits, of which the lowest two are turned over, or the lowest is set, with the bits before as the answer. No publication known. They change the lowest two bits only, so wider words have no more. From 0, one xor against two ors: if it is first, the word stays 3, and else an or is answered 0, 1 or 2. Why not more stands in catalogue/README.md.",
     "de": "4 Bits, von denen die untersten zwei umgekehrt werden oder das unterste gesetzt wird, mit den Bits davor als Antwort. Keine Veröffentlichung bekannt. Sie ändern nur die untersten zwei Bits, also haben breitere Wörter keine größere Zahl. Ab 0 ein Xor gegen zwei Oder: kommt es zuerst, bleibt das Wort 3, sonst bekommt ein Oder 0, 1 oder 2 zur Antwort."
    },
    "text": "# Four bits, of which the lowest two are turned over, or the lowest is set, with the bits before as the answer.\n# No publication known.\nname = \"xor3_or1_4bit\"\nstates = [\"b0000\", \"b0001\", \"b0010\", \"b0011\", \"b0100\", \"b0101\", \"b0110\", \"b0111\", \"b1000\", \"b1001\", \"b1010\", \"b1011\", \"b1100\", \"b1101\", \"b1110\", \"b1111\"]\nresponses = [\"b0000\", \"b0001\", \"b0010\", \"b0011\", \"b0100\", \"b0101\", \"b0110\", \"b0111\", \"b1000\", \"b1001\", \"b1010\", \"b1011\", \"b1100\", \"b1101\", \"b1110\", \"b1111\"]\n[[operation]]\nname = \"xor3\"\nresponse = [\"b0000\", \"b0001\", \"b0010\", \"b0011\", \"b0100\", \"b0101\", \"b0110\", \"b0111\", \"b1000\", \"b1001\", \"b1010\", \"b1011\", \"b1100\", \"b1101\", \"b1110\", \"b1111\"]\nnext = [\"b0011\", \"b0010\", \"b0001\", \"b0000\", \"b0111\", \"b0110\", \"b0101\", \"b0100\", \"b1011\", \"b1010\", \"b1001\", \"b1000\", \"b1111\", \"b1110\", \"b1101\", \"b1100\"]\n[[operation]]\nname = \"or1\"\nresponse = [\"b0000\", \"b0001\", \"b0010\", \"b0011\", \"b0100\", \"b0101\", \"b0110\", \"b0111\", \"b1000\", \"b1001\", \"b1010\", \"b1011\", \"b1100\", \"b1101\", \"b1110\", \"b1111\"]\nnext = [\"b0001\", \"b0001\", \"b0011\", \"b0011\", \"b0101\", \"b0101\", \"b0111\", \"b0111\", \"b1001\", \"b1001\", \"b1011\", \"b1011\", \"b1101\", \"b1101\", \"b1111\", \"b1111\"]\n"
   },
   {
    "path": "catalogue/swap_add_2bit",
    "about": {
     "en": "Two bits, which are exchanged, or to which a number is added, with the bits before as the answer. Literature: 2 by the theorem of Herlihy 1991. An exchange wipes out what was before it, and additions commute, whatever is written or added.",
     "de": "2 Bits, die getauscht werden oder zu denen eine Zahl addiert wird, mit den Bits davor als Antwort. Literatur: 2 nach dem Satz von Herlihy 1991. Ein Tausch löscht aus, was vorher war, und Additionen vertauschen."
    },
    "text": "# Two bits, which are exchanged, or to which a number is added, with the bits before as the answer.\n# Interfering operations of Herlihy 1991.\nname = \"swap_add_2bit\"\nstates = [\"b00\", \"b01\", \"b10\", \"b11\"]\nresponses = [\"b00\", \"b01\", \"b10\", \"b11\"]\n[[operation]]\nname = \"swap0\"\nresponse = [\"b00\", \"b01\", \"b10\", \"b11\"]\nnext = [\"b00\", \"b00\", \"b00\", \"b00\"]\n[[operation]]\nname = \"swap1\"\nresponse = [\"b00\", \"b01\", \"b10\", \"b11\"]\nnext = [\"b01\", \"b01\", \"b01\", \"b01\"]\n[[operation]]\nname = \"swap2\"\nresponse = [\"b00\", \"b01\", \"b10\", \"b11\"]\nnext = [\"b10\", \"b10\", \"b10\", \"b10\"]\n[[operation]]\nname = \"swap3\"\nresponse = [\"b00\", \"b01\", \"b10\", \"b11\"]\nnext = [\"b11\", \"b11\", \"b11\", \"b11\"]\n[[operation]]\nname = \"add1\"\nresponse = [\"b00\", \"b01\", \"b10\", \"b11\"]\nnext = [\"b01\", \"b10\", \"b11\", \"b00\"]\n[[operation]]\nname = \"add2\"\nresponse = [\"b00\", \"b01\", \"b10\", \"b11\"]\nnext = [\"b10\", \"b11\", \"b00\", \"b01\"]\n[[operation]]\nname = \"add3\"\nresponse = [\"b00\", \"b01\", \"b10\", \"b11\"]\nnext = [\"b11\", \"b00\", \"b01\", \"b10\"]\n"
   },
   {
    "path": "catalogue/swap_add_3bit",
    "about": {
     "en": "Three bits, which are exchanged, or to which a number is added, with the bits before as the answer, with 8 of its 15 operations. Literature: 2 by the theorem of Herlihy 1991. An exchange wipes out what was before it, and additions commute, whatever is written or added.",
     "de": "3 Bits, die getauscht werden oder zu denen eine Zahl addiert wird, mit den Bits davor als Antwort. Literatur: 2 nach dem Satz von Herlihy 1991. Ein Tausch löscht aus, was vorher war, und Additionen vertauschen."
    },
    "text": "# Three bits, which are exchanged, or to which a number is added, with the bits before as the answer, with 8 of its 15 operations.\n# Interfering operations of Herlihy 1991.\nname = \"swap_add_3bit\"\nstates = [\"b000\", \"b001\", \"b010\", \"b011\", \"b100\", \"b101\", \"b110\", \"b111\"]\nresponses = [\"b000\", \"b001\", \"b010\", \"b011\", \"b100\", \"b101\", \"b110\", \"b111\"]\n[[operation]]\nname = \"swap0\"\nresponse = [\"b000\", \"b001\", \"b010\", \"b011\", \"b100\", \"b101\", \"b110\", \"b111\"]\nnext = [\"b000\", \"b000\", \"b000\", \"b000\", \"b000\", \"b000\", \"b000\", \"b000\"]\n[[operation]]\nname = \"swap1\"\nresponse = [\"b000\", \"b001\", \"b010\", \"b011\", \"b100\", \"b101\", \"b110\", \"b111\"]\nnext = [\"b001\", \"b001\", \"b001\", \"b001\", \"b001\", \"b001\", \"b001\", \"b001\"]\n[[operation]]\nname = \"swap4\"\nresponse = [\"b000\", \"b001\", \"b010\", \"b011\", \"b100\", \"b101\", \"b110\", \"b111\"]\nnext = [\"b100\", \"b100\", \"b100\", \"b100\", \"b100\", \"b100\", \"b100\", \"b100\"]\n[[operation]]\nname = \"swap7\"\nresponse = [\"b000\", \"b001\", \"b010\", \"b011\", \"b100\", \"b101\", \"b110\", \"b111\"]\nnext = [\"b111\", \"b111\", \"b111\", \"b111\", \"b111\", \"b111\", \"b111\", \"b111\"]\n[[operation]]\nname = \"add1\"\nresponse = [\"b000\", \"b001\", \"b010\", \"b011\", \"b100\", \"b101\", \"b110\", \"b111\"]\nnext = [\"b001\", \"b010\", \"b011\", \"b100\", \"b101\", \"b110\", \"b111\", \"b000\"]\n[[operation]]\nname = \"add2\"\nresponse = [\"b000\", \"b001\", \"b010\", \"b011\", \"b100\", \"b101\", \"b110\", \"b111\"]\nnext = [\"b010\", \"b011\", \"b100\", \"b101\", \"b110\", \"b111\", \"b000\", \"b001\"]\n[[operation]]\nname = \"add4\"\nresponse = [\"b000\", \"b001\", \"b010\", \"b011\", \"b100\", \"b101\", \"b110\", \"b111\"]\nnext = [\"b100\", \"b101\", \"b110\", \"b111\", \"b000\", \"b001\", \"b010\", \"b011\"]\n[[operation]]\nname = \"add7\"\nresponse = [\"b000\", \"b001\", \"b010\", \"b011\", \"b100\", \"b101\", \"b110\", \"b111\"]\nnext = [\"b111\", \"b000\", \"b001\", \"b010\", \"b011\", \"b100\", \"b101\", \"b110\"]\n"
   },
   {
    "path": "catalogue/swap_add_4bit",
    "about": {
     "en": "Four bits, which are exchanged, or to which a number is added, with the bits before as the answer, with 8 of its 31 operations. Literature: 2 by the theorem of Herlihy 1991. An exchange wipes out what was before it, and additions commute, whatever is written or added.",
     "de": "4 Bits, die getauscht werden oder zu denen eine Zahl addiert wird, mit den Bits davor als Antwort. Literatur: 2 nach dem Satz von Herlihy 1991. Ein Tausch löscht aus, was vorher war, und Additionen vertauschen."
    },
    "text": "# Four bits, which are exchanged, or to which a number is added, with the bits before as the answer, with 8 of its 31 operations.\n# Interfering operations of Herlihy 1991.\nname = \"swap_add_4bit\"\nstates = [\"b0000\", \"b0001\", \"b0010\", \"b0011\", \"b0100\", \"b0101\", \"b0110\", \"b0111\", \"b1000\", \"b1001\", \"b1010\", \"b1011\", \"b1100\", \"b1101\", \"b1110\", \"b1111\"]\nresponses = [\"b0000\", \"b0001\", \"b0010\", \"b0011\", \"b0100\", \"b0101\", \"b0110\", \"b0111\", \"b1000\", \"b1001\", \"b1010\", \"b1011\", \"b1100\", \"b1101\", \"b1110\", \"b1111\"]\n[[operation]]\nname = \"swap0\"\nresponse = [\"b0000\", \"b0001\", \"b0010\", \"b0011\", \"b0100\", \"b0101\", \"b0110\", \"b0111\", \"b1000\", \"b1001\", \"b1010\", \"b1011\", \"b1100\", \"b1101\", \"b1110\", \"b1111\"]\nnext = [\"b0000\", \"b0000\", \"b0000\", \"b0000\", \"b0000\", \"b0000\", \"b0000\", \"b0000\", \"b0000\", \"b0000\", \"b0000\", \"b0000\", \"b0000\", \"b0000\", \"b0000\", \"b0000\"]\n[[operation]]\nname = \"swap1\"\nresponse = [\"b0000\", \"b0001\", \"b0010\", \"b0011\", \"b0100\", \"b0101\", \"b0110\", \"b0111\", \"b1000\", \"b1001\", \"b1010\", \"b1011\", \"b1100\", \"b1101\", \"b1110\", \"b1111\"]\nnext = [\"b0001\", \"b0001\", \"b0001\", \"b0001\", \"b0001\", \"b0001\", \"b0001\", \"b0001\", \"b0001\", \"b0001\", \"b0001\", \"b0001\", \"b0001\", \"b0001\", \"b0001\", \"b0001\"]\n[[operation]]\nname = \"swap8\"\nresponse = [\"b0000\", \"b0001\", \"b0010\", \"b0011\", \"b0100\", \"b0101\", \"b0110\", \"b0111\", \"b1000\", \"b1001\", \"b1010\", \"b1011\", \"b1100\", \"b1101\", \"b1110\", \"b1111\"]\nnext = [\"b1000\", \"b1000\", \"b1000\", \"b1000\", \"b1000\", \"b1000\", \"b1000\", \"b1000\", \"b1000\", \"b1000\", \"b1000\", \"b1000\", \"b1000\", \"b1000\", \"b1000\", \"b1000\"]\n[[operation]]\nname = \"swap15\"\nresponse = [\"b0000\", \"b0001\", \"b0010\", \"b0011\", \"b0100\", \"b0101\", \"b0110\", \"b0111\", \"b1000\", \"b1001\", \"b1010\", \"b1011\", \"b1100\", \"b1101\", \"b1110\", \"b1111\"]\nnext = [\"b1111\", \"b1111\", \"b1111\", \"b1111\", \"b1111\", \"b1111\", \"b1111\", \"b1111\", \"b1111\", \"b1111\", \"b1111\", \"b1111\", \"b1111\", \"b1111\", \"b1111\", \"b1111\"]\n[[operation]]\nname = \"add1\"\nresponse = [\"b0000\", \"b0001\", \"b0010\", \"b0011\", \"b0100\", \"b0101\", \"b0110\", \"b0111\", \"b1000\", \"b1001\", \"b1010\", \"b1011\", \"b1100\", \"b1101\", \"b1110\", \"b1111\"]\nnext = [\"b0001\", \"b0010\", \"b0011\", \"b0100\", \"b0101\", \"b0110\", \"b0111\", \"b1000\", \"b1001\", \"b1010\", \"b1011\", \"b1100\", \"b1101\", \"b1110\", \"b1111\", \"b0000\"]\n[[operation]]\nname = \"add2\"\nresponse = [\"b0000\", \"b0001\", \"b0010\", \"b0011\", \"b0100\", \"b0101\", \"b0110\", \"b0111\", \"b1000\", \"b1001\", \"b1010\", \"b1011\", \"b1100\", \"b1101\", \"b1110\", \"b1111\"]\nnext = [\"b0010\", \"b0011\", \"b0100\", \"b0101\", \"b0110\", \"b0111\", \"b1000\", \"b1001\", \"b1010\", \"b1011\", \"b1100\", \"b1101\", \"b1110\", \"b1111\", \"b0000\", \"b0001\"]\n[[operation]]\nname = \"add8\"\nresponse = [\"b0000\", \"b0001\", \"b0010\", \"b0011\", \"b0100\", \"b0101\", \"b0110\", \"b0111\", \"b1000\", \"b1001\", \"b1010\", \"b1011\", \"b1100\", \"b1101\", \"b1110\", \"b1111\"]\nnext = [\"b1000\", \"b1001\", \"b1010\", \"b1011\", \"b1100\", \"b1101\", \"b1110\", \"b1111\", \"b0000\", \"b0001\", \"b0010\", \"b0011\", \"b0100\", \"b0101\", \"b0110\", \"b0111\"]\n[[operation]]\nname = \"add15\"\nresponse = [\"b0000\", \"b0001\", \"b0010\", \"b0011\", \"b0100\", \"b0101\", \"b0110\", \"b0111\", \"b1000\", \"b1001\", \"b1010\", \"b1011\", \"b1100\", \"b1101\", \"b1110\", \"b1111\"]\nnext = [\"b1111\", \"b0000\", \"b0001\", \"b0010\", \"b0011\", \"b0100\", \"b0101\", \"b0110\", \"b0111\", \"b1000\", \"b1001\", \"b1010\", \"b1011\", \"b1100\", \"b1101\", \"b1110\"]\n"
   },
   {
    "path": "catalogue/bit_change_2bit",
    "about": {
     "en": "Two bits, of which one is set, reset or complemented, with this bit before as the answer. Literature: 2 by the theorem of Herlihy 1991. On one bit, set and reset wipe out what was before them, and two complements commute; operations on different bits commute.",
     "de": "2 Bits, von denen eines gesetzt, gelöscht oder umgekehrt wird, mit diesem Bit davor als Antwort. Literatur: 2 nach dem Satz von Herlihy 1991. Auf einem Bit löschen Setzen und Löschen aus, was vorher war, und zwei Umkehrungen vertauschen; auf verschiedenen Bits vertauschen alle."
    },
    "text": "# Two bits, of which one is set, reset or complemented, with this bit before as the answer.\n# Interfering operations of Herlihy 1991.\nname = \"bit_change_2bit\"\nstates = [\"b00\", \"b01\", \"b10\", \"b11\"]\nresponses = [\"0\", \"1\"]\n[[operation]]\nname = \"set0\"\nresponse = [\"0\", \"1\", \"0\", \"1\"]\nnext = [\"b01\", \"b01\", \"b11\", \"b11\"]\n[[operation]]\nname = \"reset0\"\nresponse = [\"0\", \"1\", \"0\", \"1\"]\nnext = [\"b00\", \"b00\", \"b10\", \"b10\"]\n[[operation]]\nname = \"complement0\"\nresponse = [\"0\", \"1\", \"0\", \"1\"]\nnext = [\"b01\", \"b00\", \"b11\", \"b10\"]\n[[operation]]\nname = \"set1\"\nresponse = [\"0\", \"0\", \"1\", \"1\"]\nnext = [\"b10\", \"b11\", \"b10\", \"b11\"]\n[[operation]]\nname = \"reset1\"\nresponse = [\"0\", \"0\", \"1\", \"1\"]\nnext = [\"b00\", \"b01\", \"b00\", \"b01\"]\n[[operation]]\nname = \"complement1\"\nresponse = [\"0\", \"0\", \"1\", \"1\"]\nnext = [\"b10\", \"b11\", \"b00\", \"b01\"]\n"
   },
   {
    "path": "catalogue/bit_change_3bit",
    "about": {
     "en": "Three bits, of which one is set, reset or complemented, with this bit before as the answer, with 8 of its 9 operations. Literature: 2 by the theorem of Herlihy 1991. On one bit, set and reset wipe out what was before them, and two complements commute; operations on different bits commute.",
     "de": "3 Bits, von denen eines gesetzt, gelöscht oder umgekehrt wird, mit diesem Bit davor als Antwort. Literatur: 2 nach dem Satz von Herlihy 1991. Auf einem Bit löschen Setzen und Löschen aus, was vorher war, und zwei Umkehrungen vertauschen; auf verschiedenen Bits vertauschen alle."
    },
    "text": "# Three bits, of which one is set, reset or complemented, with this bit before as the answer, with 8 of its 9 operations.\n# Interfering operations of Herlihy 1991.\nname = \"bit_change_3bit\"\nstates = [\"b000\", \"b001\", \"b010\", \"b011\", \"b100\", \"b101\", \"b110\", \"b111\"]\nresponses = [\"0\", \"1\"]\n[[operation]]\nname = \"set0\"\nresponse = [\"0\", \"1\", \"0\", \"1\", \"0\", \"1\", \"0\", \"1\"]\nnext = [\"b001\", \"b001\", \"b011\", \"b011\", \"b101\", \"b101\", \"b111\", \"b111\"]\n[[operation]]\nname = \"reset0\"\nresponse = [\"0\", \"1\", \"0\", \"1\", \"0\", \"1\", \"0\", \"1\"]\nnext = [\"b000\", \"b000\", \"b010\", \"b010\", \"b100\", \"b100\", \"b110\", \"b110\"]\n[[operation]]\nname = \"complement0\"\nresponse = [\"0\", \"1\", \"0\", \"1\", \"0\", \"1\", \"0\", \"1\"]\nnext = [\"b001\", \"b000\", \"b011\", \"b010\", \"b101\", \"b100\", \"b111\", \"b110\"]\n[[operation]]\nname = \"set1\"\nresponse = [\"0\", \"0\", \"1\", \"1\", \"0\", \"0\", \"1\", \"1\"]\nnext = [\"b010\", \"b011\", \"b010\", \"b011\", \"b110\", \"b111\", \"b110\", \"b111\"]\n[[operation]]\nname = \"reset1\"\nresponse = [\"0\", \"0\", \"1\", \"1\", \"0\", \"0\", \"1\", \"1\"]\nnext = [\"b000\", \"b001\", \"b000\", \"b001\", \"b100\", \"b101\", \"b100\", \"b101\"]\n[[operation]]\nname = \"complement1\"\nresponse = [\"0\", \"0\", \"1\", \"1\", \"0\", \"0\", \"1\", \"1\"]\nnext = [\"b010\", \"b011\", \"b000\", \"b001\", \"b110\", \"b111\", \"b100\", \"b101\"]\n[[operation]]\nname = \"set2\"\nresponse = [\"0\", \"0\", \"0\", \"0\", \"1\", \"1\", \"1\", \"1\"]\nnext = [\"b100\", \"b101\", \"b110\", \"b111\", \"b100\", \"b101\", \"b110\", \"b111\"]\n[[operation]]\nname = \"reset2\"\nresponse = [\"0\", \"0\", \"0\", \"0\", \"1\", \"1\", \"1\", \"1\"]\nnext = [\"b000\", \"b001\", \"b010\", \"b011\", \"b000\", \"b001\", \"b010\", \"b011\"]\n"
   },
   {
    "path": "catalogue/bit_change_4bit",
    "about": {
     "en": "Four bits, of which one is set, reset or complemented, with this bit before as the answer, with 8 of its 12 operations. Literature: 2 by the theorem of Herlihy 1991. On one bit, set and reset wipe out what was before them, and two complements commute; operations on different bits commute.",
     "de": "4 Bits, von denen eines gesetzt, gelöscht oder umgekehrt wird, mit diesem Bit davor als Antwort. Literatur: 2 nach dem Satz von Herlihy 1991. Auf einem Bit löschen Setzen und Löschen aus, was vorher war, und zwei Umkehrungen vertauschen; auf verschiedenen Bits vertauschen alle."
    },
    "used": [
     "x86",
     "LOCK BTS",
     "BTR",
     "BTC"
    ],
    "text": "# Four bits, of which one is set, reset or complemented, with this bit before as the answer, with 8 of its 12 operations.\n# Interfering operations of Herlihy 1991.\nname = \"bit_change_4bit\"\nstates = [\"b0000\", \"b0001\", \"b0010\", \"b0011\", \"b0100\", \"b0101\", \"b0110\", \"b0111\", \"b1000\", \"b1001\", \"b1010\", \"b1011\", \"b1100\", \"b1101\", \"b1110\", \"b1111\"]\nresponses = [\"0\", \"1\"]\n[[operation]]\nname = \"set0\"\nresponse = [\"0\", \"1\", \"0\", \"1\", \"0\", \"1\", \"0\", \"1\", \"0\", \"1\", \"0\", \"1\", \"0\", \"1\", \"0\", \"1\"]\nnext = [\"b0001\", \"b0001\", \"b0011\", \"b0011\", \"b0101\", \"b0101\", \"b0111\", \"b0111\", \"b1001\", \"b1001\", \"b1011\", \"b1011\", \"b1101\", \"b1101\", \"b1111\", \"b1111\"]\n[[operation]]\nname = \"reset0\"\nresponse = [\"0\", \"1\", \"0\", \"1\", \"0\", \"1\", \"0\", \"1\", \"0\", \"1\", \"0\", \"1\", \"0\", \"1\", \"0\", \"1\"]\nnext = [\"b0000\", \"b0000\", \"b0010\", \"b0010\", \"b0100\", \"b0100\", \"b0110\", \"b0110\", \"b1000\", \"b1000\", \"b1010\", \"b1010\", \"b1100\", \"b1100\", \"b1110\", \"b1110\"]\n[[operation]]\nname = \"complement0\"\nresponse = [\"0\", \"1\", \"0\", \"1\", \"0\", \"1\", \"0\", \"1\", \"0\", \"1\", \"0\", \"1\", \"0\", \"1\", \"0\", \"1\"]\nnext = [\"b0001\", \"b0000\", \"b0011\", \"b0010\", \"b0101\", \"b0100\", \"b0111\", \"b0110\", \"b1001\", \"b1000\", \"b1011\", \"b1010\", \"b1101\", \"b1100\", \"b1111\", \"b1110\"]\n[[operation]]\nname = \"set1\"\nresponse = [\"0\", \"0\", \"1\", \"1\", \"0\", \"0\", \"1\", \"1\", \"0\", \"0\", \"1\", \"1\", \"0\", \"0\", \"1\", \"1\"]\nnext = [\"b0010\", \"b0011\", \"b0010\", \"b0011\", \"b0110\", \"b0111\", \"b0110\", \"b0111\", \"b1010\", \"b1011\", \"b1010\", \"b1011\", \"b1110\", \"b1111\", \"b1110\", \"b1111\"]\n[[operation]]\nname = \"reset1\"\nresponse = [\"0\", \"0\", \"1\", \"1\", \"0\", \"0\", \"1\", \"1\", \"0\", \"0\", \"1\", \"1\", \"0\", \"0\", \"1\", \"1\"]\nnext = [\"b0000\", \"b0001\", \"b0000\", \"b0001\", \"b0100\", \"b0101\", \"b0100\", \"b0101\", \"b1000\", \"b1001\", \"b1000\", \"b1001\", \"b1100\", \"b1101\", \"b1100\", \"b1101\"]\n[[operation]]\nname = \"complement1\"\nresponse = [\"0\", \"0\", \"1\", \"1\", \"0\", \"0\", \"1\", \"1\", \"0\", \"0\", \"1\", \"1\", \"0\", \"0\", \"1\", \"1\"]\nnext = [\"b0010\", \"b0011\", \"b0000\", \"b0001\", \"b0110\", \"b0111\", \"b0100\", \"b0101\", \"b1010\", \"b1011\", \"b1000\", \"b1001\", \"b1110\", \"b1111\", \"b1100\", \"b1101\"]\n[[operation]]\nname = \"set2\"\nresponse = [\"0\", \"0\", \"0\", \"0\", \"1\", \"1\", \"1\", \"1\", \"0\", \"0\", \"0\", \"0\", \"1\", \"1\", \"1\", \"1\"]\nnext = [\"b0100\", \"b0101\", \"b0110\", \"b0111\", \"b0100\", \"b0101\", \"b0110\", \"b0111\", \"b1100\", \"b1101\", \"b1110\", \"b1111\", \"b1100\", \"b1101\", \"b1110\", \"b1111\"]\n[[operation]]\nname = \"reset2\"\nresponse = [\"0\", \"0\", \"0\", \"0\", \"1\", \"1\", \"1\", \"1\", \"0\", \"0\", \"0\", \"0\", \"1\", \"1\", \"1\", \"1\"]\nnext = [\"b0000\", \"b0001\", \"b0010\", \"b0011\", \"b0000\", \"b0001\", \"b0010\", \"b0011\", \"b1000\", \"b1001\", \"b1010\", \"b1011\", \"b1000\", \"b1001\", \"b1010\", \"b1011\"]\n"
   },
   {
    "path": "catalogue/riscv_amo_2bit",
    "about": {
     "en": "Two bits, on which each of seven atomic memory operations of RISC-V works with one operand, with the bits before as the answer. Literature: the manual has the instructions, and no number (Waterman and Asanović 2019). Among them are the addition of 1 and the and that clears the lowest bit.",
     "de": "2 Bits, auf denen jeder von sieben atomaren Speicherbefehlen von RISC-V mit einem Operanden arbeitet, mit den Bits davor als Antwort. Literatur: das Handbuch hat die Befehle, und keine Zahl (Waterman and Asanović 2019). Unter ihnen sind die Addition von 1 und das Und, das das unterste Bit löscht: zusammen haben sie keine größte Zahl."
    },
    "text": "# Two bits, on which each of seven atomic memory operations of RISC-V works with one operand, with the bits before as the answer.\n# The instructions: Waterman and Asanović 2019.\nname = \"riscv_amo_2bit\"\nstates = [\"b00\", \"b01\", \"b10\", \"b11\"]\nresponses = [\"b00\", \"b01\", \"b10\", \"b11\"]\n[[operation]]\nname = \"amoswap\"\nresponse = [\"b00\", \"b01\", \"b10\", \"b11\"]\nnext = [\"b00\", \"b00\", \"b00\", \"b00\"]\n[[operation]]\nname = \"amoadd\"\nresponse = [\"b00\", \"b01\", \"b10\", \"b11\"]\nnext = [\"b01\", \"b10\", \"b11\", \"b00\"]\n[[operation]]\nname = \"amoxor\"\nresponse = [\"b00\", \"b01\", \"b10\", \"b11\"]\nnext = [\"b11\", \"b10\", \"b01\", \"b00\"]\n[[operation]]\nname = \"amoand\"\nresponse = [\"b00\", \"b01\", \"b10\", \"b11\"]\nnext = [\"b00\", \"b00\", \"b10\", \"b10\"]\n[[operation]]\nname = \"amoor\"\nresponse = [\"b00\", \"b01\", \"b10\", \"b11\"]\nnext = [\"b10\", \"b11\", \"b10\", \"b11\"]\n[[operation]]\nname = \"amomaxu\"\nresponse = [\"b00\", \"b01\", \"b10\", \"b11\"]\nnext = [\"b01\", \"b01\", \"b10\", \"b11\"]\n[[operation]]\nname = \"amominu\"\nresponse = [\"b00\", \"b01\", \"b10\", \"b11\"]\nnext = [\"b00\", \"b01\", \"b01\", \"b01\"]\n"
   },
   {
    "path": "catalogue/riscv_amo_3bit",
    "about": {
     "en": "Three bits, on which each of seven atomic memory operations of RISC-V works with one operand, with the bits before as the answer. Literature: the manual has the instructions, and no number (Waterman and Asanović 2019). Among them are the addition of 1 and the and that clears the lowest bit.",
     "de": "3 Bits, auf denen jeder von sieben atomaren Speicherbefehlen von RISC-V mit einem Operanden arbeitet, mit den Bits davor als Antwort. Literatur: das Handbuch hat die Befehle, und keine Zahl (Waterman and Asanović 2019). Unter ihnen sind die Addition von 1 und das Und, das das unterste Bit löscht: zusammen haben sie keine größte Zahl."
    },
    "text": "# Three bits, on which each of seven atomic memory operations of RISC-V works with one operand, with the bits before as the answer.\n# The instructions: Waterman and Asanović 2019.\nname = \"riscv_amo_3bit\"\nstates = [\"b000\", \"b001\", \"b010\", \"b011\", \"b100\", \"b101\", \"b110\", \"b111\"]\nresponses = [\"b000\", \"b001\", \"b010\", \"b011\", \"b100\", \"b101\", \"b110\", \"b111\"]\n[[operation]]\nname = \"amoswap\"\nresponse = [\"b000\", \"b001\", \"b010\", \"b011\", \"b100\", \"b101\", \"b110\", \"b111\"]\nnext = [\"b000\", \"b000\", \"b000\", \"b000\", \"b000\", \"b000\", \"b000\", \"b000\"]\n[[operation]]\nname = \"amoadd\"\nresponse = [\"b000\", \"b001\", \"b010\", \"b011\", \"b100\", \"b101\", \"b110\", \"b111\"]\nnext = [\"b001\", \"b010\", \"b011\", \"b100\", \"b101\", \"b110\", \"b111\", \"b000\"]\n[[operation]]\nname = \"amoxor\"\nresponse = [\"b000\", \"b001\", \"b010\", \"b011\", \"b100\", \"b101\", \"b110\", \"b111\"]\nnext = [\"b011\", \"b010\", \"b001\", \"b000\", \"b111\", \"b110\", \"b101\", \"b100\"]\n[[operation]]\nname = \"amoand\"\nresponse = [\"b000\", \"b001\", \"b010\", \"b011\", \"b100\", \"b101\", \"b110\", \"b111\"]\nnext = [\"b000\", \"b000\", \"b010\", \"b010\", \"b100\", \"b100\", \"b110\", \"b110\"]\n[[operation]]\nname = \"amoor\"\nresponse = [\"b000\", \"b001\", \"b010\", \"b011\", \"b100\", \"b101\", \"b110\", \"b111\"]\nnext = [\"b010\", \"b011\", \"b010\", \"b011\", \"b110\", \"b111\", \"b110\", \"b111\"]\n[[operation]]\nname = \"amomaxu\"\nresponse = [\"b000\", \"b001\", \"b010\", \"b011\", \"b100\", \"b101\", \"b110\", \"b111\"]\nnext = [\"b001\", \"b001\", \"b010\", \"b011\", \"b100\", \"b101\", \"b110\", \"b111\"]\n[[operation]]\nname = \"amominu\"\nresponse = [\"b000\", \"b001\", \"b010\", \"b011\", \"b100\", \"b101\", \"b110\", \"b111\"]\nnext = [\"b000\", \"b001\", \"b001\", \"b001\", \"b001\", \"b001\", \"b001\", \"b001\"]\n"
   },
   {
    "path": "catalogue/riscv_amo_4bit",
    "about": {
     "en": "Four bits, on which each of seven atomic memory operations of RISC-V works with one operand, with the bits before as the answer. Literature: the manual has the instructions, and no number (Waterman and Asanović 2019). Among them are the addition of 1 and the and that clears the lowest bit.",
     "de": "4 Bits, auf denen jeder von sieben atomaren Speicherbefehlen von RISC-V mit einem Operanden arbeitet, mit den Bits davor als Antwort. Literatur: das Handbuch hat die Befehle, und keine Zahl (Waterman and Asanović 2019). Unter ihnen sind die Addition von 1 und das Und, das das unterste Bit löscht: zusammen haben sie keine größte Zahl."
    },
    "used": [
     "RISC-V: A and Zacas",
     "AMO"
    ],
    "text": "# Four bits, on which each of seven atomic memory operations of RISC-V works with one operand, with the bits before as the answer.\n# The instructions: Waterman and Asanović 2019.\nname = \"riscv_amo_4bit\"\nstates = [\"b0000\", \"b0001\", \"b0010\", \"b0011\", \"b0100\", \"b0101\", \"b0110\", \"b0111\", \"b1000\", \"b1001\", \"b1010\", \"b1011\", \"b1100\", \"b1101\", \"b1110\", \"b1111\"]\nresponses = [\"b0000\", \"b0001\", \"b0010\", \"b0011\", \"b0100\", \"b0101\", \"b0110\", \"b0111\", \"b1000\", \"b1001\", \"b1010\", \"b1011\", \"b1100\", \"b1101\", \"b1110\", \"b1111\"]\n[[operation]]\nname = \"amoswap\"\nresponse = [\"b0000\", \"b0001\", \"b0010\", \"b0011\", \"b0100\", \"b0101\", \"b0110\", \"b0111\", \"b1000\", \"b1001\", \"b1010\", \"b1011\", \"b1100\", \"b1101\", \"b1110\", \"b1111\"]\nnext = [\"b0000\", \"b0000\", \"b0000\", \"b0000\", \"b0000\", \"b0000\", \"b0000\", \"b0000\", \"b0000\", \"b0000\", \"b0000\", \"b0000\", \"b0000\", \"b0000\", \"b0000\", \"b0000\"]\n[[operation]]\nname = \"amoadd\"\nresponse = [\"b0000\", \"b0001\", \"b0010\", \"b0011\", \"b0100\", \"b0101\", \"b0110\", \"b0111\", \"b1000\", \"b1001\", \"b1010\", \"b1011\", \"b1100\", \"b1101\", \"b1110\", \"b1111\"]\nnext = [\"b0001\", \"b0010\", \"b0011\", \"b0100\", \"b0101\", \"b0110\", \"b0111\", \"b1000\", \"b1001\", \"b1010\", \"b1011\", \"b1100\", \"b1101\", \"b1110\", \"b1111\", \"b0000\"]\n[[operation]]\nname = \"amoxor\"\nresponse = [\"b0000\", \"b0001\", \"b0010\", \"b0011\", \"b0100\", \"b0101\", \"b0110\", \"b0111\", \"b1000\", \"b1001\", \"b1010\", \"b1011\", \"b1100\", \"b1101\", \"b1110\", \"b1111\"]\nnext = [\"b0011\", \"b0010\", \"b0001\", \"b0000\", \"b0111\", \"b0110\", \"b0101\", \"b0100\", \"b1011\", \"b1010\", \"b1001\", \"b1000\", \"b1111\", \"b1110\", \"b1101\", \"b1100\"]\n[[operation]]\nname = \"amoand\"\nresponse = [\"b0000\", \"b0001\", \"b0010\", \"b0011\", \"b0100\", \"b0101\", \"b0110\", \"b0111\", \"b1000\", \"b1001\", \"b1010\", \"b1011\", \"b1100\", \"b1101\", \"b1110\", \"b1111\"]\nnext = [\"b0000\", \"b0000\", \"b0010\", \"b0010\", \"b0100\", \"b0100\", \"b0110\", \"b0110\", \"b1000\", \"b1000\", \"b1010\", \"b1010\", \"b1100\", \"b1100\", \"b1110\", \"b1110\"]\n[[operation]]\nname = \"amoor\"\nresponse = [\"b0000\", \"b0001\", \"b0010\", \"b0011\", \"b0100\", \"b0101\", \"b0110\", \"b0111\", \"b1000\", \"b1001\", \"b1010\", \"b1011\", \"b1100\", \"b1101\", \"b1110\", \"b1111\"]\nnext = [\"b0010\", \"b0011\", \"b0010\", \"b0011\", \"b0110\", \"b0111\", \"b0110\", \"b0111\", \"b1010\", \"b1011\", \"b1010\", \"b1011\", \"b1110\", \"b1111\", \"b1110\", \"b1111\"]\n[[operation]]\nname = \"amomaxu\"\nresponse = [\"b0000\", \"b0001\", \"b0010\", \"b0011\", \"b0100\", \"b0101\", \"b0110\", \"b0111\", \"b1000\", \"b1001\", \"b1010\", \"b1011\", \"b1100\", \"b1101\", \"b1110\", \"b1111\"]\nnext = [\"b0001\", \"b0001\", \"b0010\", \"b0011\", \"b0100\", \"b0101\", \"b0110\", \"b0111\", \"b1000\", \"b1001\", \"b1010\", \"b1011\", \"b1100\", \"b1101\", \"b1110\", \"b1111\"]\n[[operation]]\nname = \"amominu\"\nresponse = [\"b0000\", \"b0001\", \"b0010\", \"b0011\", \"b0100\", \"b0101\", \"b0110\", \"b0111\", \"b1000\", \"b1001\", \"b1010\", \"b1011\", \"b1100\", \"b1101\", \"b1110\", \"b1111\"]\nnext = [\"b0000\", \"b0001\", \"b0001\", \"b0001\", \"b0001\", \"b0001\", \"b0001\", \"b0001\", \"b0001\", \"b0001\", \"b0001\", \"b0001\", \"b0001\", \"b0001\", \"b0001\", \"b0001\"]\n"
   }
  ]
 },
 {
  "name": {
   "en": "n-shot objects",
   "de": "Objekte, die n Aufrufe beantworten"
  },
  "types": [
   {
    "path": "catalogue/shot_1",
    "about": {
     "en": "Answers one call with the letter of the first, then forgets it and answers nothing more. It is test-and-set by another name: who is answered a letter was first. The number is 2.",
     "de": "Beantwortet einen Aufruf mit seinem Buchstaben, vergisst ihn und antwortet nichts mehr. Es ist Test-and-set mit anderem Namen: wer einen Buchstaben zur Antwort bekommt, war der erste. Die Zahl ist 2."
    },
    "text": "# Answers one call with the letter of the first, then forgets it and answers nothing more.\n# An agreement object that is made to forget; no publication known.\nname = \"shot_1\"\nstates = [\"bot\", \"dead\"]\nresponses = [\"a\", \"none\", \"b\"]\n[[operation]]\nname = \"x\"\nresponse = [\"a\", \"none\"]\nnext = [\"dead\", \"dead\"]\n[[operation]]\nname = \"y\"\nresponse = [\"b\", \"none\"]\nnext = [\"dead\", \"dead\"]\n"
   },
   {
    "path": "catalogue/shot_2",
    "about": {
     "en": "Answers 2 calls with the letter of the first, then forgets it and answers nothing more. Up to 2 processes learn who was first. Of one more, the last is answered nothing and reads an object that has forgotten, so the number is 2.",
     "de": "Beantwortet 2 Aufrufe mit dem Buchstaben des ersten, vergisst ihn dann und antwortet nichts mehr. Bis zu 2 Prozesse erfahren, wer der erste war. Von einem mehr bekommt der letzte keine Antwort und liest ein Objekt, das vergessen hat: die Zahl ist 2."
    },
    "text": "# Answers 2 calls with the letter of the first, then forgets it and answers nothing more.\n# An agreement object that is made to forget; no publication known.\nname = \"shot_2\"\nstates = [\"bot\", \"a1\", \"b1\", \"dead\"]\nresponses = [\"a\", \"b\", \"none\"]\n[[operation]]\nname = \"x\"\nresponse = [\"a\", \"a\", \"b\", \"none\"]\nnext = [\"a1\", \"dead\", \"dead\", \"dead\"]\n[[operation]]\nname = \"y\"\nresponse = [\"b\", \"a\", \"b\", \"none\"]\nnext = [\"b1\", \"dead\", \"dead\", \"dead\"]\n"
   },
   {
    "path": "catalogue/shot_3",
    "about": {
     "en": "Answers 3 calls with the letter of the first, then forgets it and answers nothing more. Up to 3 processes learn who was first. Of one more, the last is answered nothing and reads an object that has forgotten, so the number is 3.",
     "de": "Beantwortet 3 Aufrufe mit dem Buchstaben des ersten, vergisst ihn dann und antwortet nichts mehr. Bis zu 3 Prozesse erfahren, wer der erste war. Von einem mehr bekommt der letzte keine Antwort und liest ein Objekt, das vergessen hat: die Zahl ist 3."
    },
    "text": "# Answers 3 calls with the letter of the first, then forgets it and answers nothing more.\n# An agreement object that is made to forget; no publication known.\nname = \"shot_3\"\nstates = [\"bot\", \"a1\", \"b1\", \"a2\", \"b2\", \"dead\"]\nresponses = [\"a\", \"b\", \"none\"]\n[[operation]]\nname = \"x\"\nresponse = [\"a\", \"a\", \"b\", \"a\", \"b\", \"none\"]\nnext = [\"a1\", \"a2\", \"b2\", \"dead\", \"dead\", \"dead\"]\n[[operation]]\nname = \"y\"\nresponse = [\"b\", \"a\", \"b\", \"a\", \"b\", \"none\"]\nnext = [\"b1\", \"a2\", \"b2\", \"dead\", \"dead\", \"dead\"]\n"
   },
   {
    "path": "catalogue/shot_4",
    "about": {
     "en": "Answers 4 calls with the letter of the first, then forgets it and answers nothing more. Up to 4 processes learn who was first. Of one more, the last is answered nothing and reads an object that has forgotten, so the number is 4.",
     "de": "Beantwortet 4 Aufrufe mit dem Buchstaben des ersten, vergisst ihn dann und antwortet nichts mehr. Bis zu 4 Prozesse erfahren, wer der erste war. Von einem mehr bekommt der letzte keine Antwort und liest ein Objekt, das vergessen hat: die Zahl ist 4."
    },
    "text": "# Answers 4 calls with the letter of the first, then forgets it and answers nothing more.\n# An agreement object that is made to forget; no publication known.\nname = \"shot_4\"\nstates = [\"bot\", \"a1\", \"b1\", \"a2\", \"b2\", \"a3\", \"b3\", \"dead\"]\nresponses = [\"a\", \"b\", \"none\"]\n[[operation]]\nname = \"x\"\nresponse = [\"a\", \"a\", \"b\", \"a\", \"b\", \"a\", \"b\", \"none\"]\nnext = [\"a1\", \"a2\", \"b2\", \"a3\", \"b3\", \"dead\", \"dead\", \"dead\"]\n[[operation]]\nname = \"y\"\nresponse = [\"b\", \"a\", \"b\", \"a\", \"b\", \"a\", \"b\", \"none\"]\nnext = [\"b1\", \"a2\", \"b2\", \"a3\", \"b3\", \"dead\", \"dead\", \"dead\"]\n"
   },
   {
    "path": "catalogue/shot_5",
    "about": {
     "en": "Answers 5 calls with the letter of the first, then forgets it and answers nothing more. Up to 5 processes learn who was first. Of one more, the last is answered nothing and reads an object that has forgotten, so the number is 5.",
     "de": "Beantwortet 5 Aufrufe mit dem Buchstaben des ersten, vergisst ihn dann und antwortet nichts mehr. Bis zu 5 Prozesse erfahren, wer der erste war. Von einem mehr bekommt der letzte keine Antwort und liest ein Objekt, das vergessen hat: die Zahl ist 5."
    },
    "text": "# Answers 5 calls with the letter of the first, then forgets it and answers nothing more.\n# An agreement object that is made to forget; no publication known.\nname = \"shot_5\"\nstates = [\"bot\", \"a1\", \"b1\", \"a2\", \"b2\", \"a3\", \"b3\", \"a4\", \"b4\", \"dead\"]\nresponses = [\"a\", \"b\", \"none\"]\n[[operation]]\nname = \"x\"\nresponse = [\"a\", \"a\", \"b\", \"a\", \"b\", \"a\", \"b\", \"a\", \"b\", \"none\"]\nnext = [\"a1\", \"a2\", \"b2\", \"a3\", \"b3\", \"a4\", \"b4\", \"dead\", \"dead\", \"dead\"]\n[[operation]]\nname = \"y\"\nresponse = [\"b\", \"a\", \"b\", \"a\", \"b\", \"a\", \"b\", \"a\", \"b\", \"none\"]\nnext = [\"b1\", \"a2\", \"b2\", \"a3\", \"b3\", \"a4\", \"b4\", \"dead\", \"dead\", \"dead\"]\n"
   },
   {
    "path": "catalogue/shot_6",
    "about": {
     "en": "Answers 6 calls with the letter of the first, then forgets it and answers nothing more. Up to 6 processes learn who was first. Of one more, the last is answered nothing and reads an object that has forgotten, so the number is 6.",
     "de": "Beantwortet 6 Aufrufe mit dem Buchstaben des ersten, vergisst ihn dann und antwortet nichts mehr. Bis zu 6 Prozesse erfahren, wer der erste war. Von einem mehr bekommt der letzte keine Antwort und liest ein Objekt, das vergessen hat: die Zahl ist 6."
    },
    "text": "# Answers 6 calls with the letter of the first, then forgets it and answers nothing more.\n# An agreement object that is made to forget; no publication known.\nname = \"shot_6\"\nstates = [\"bot\", \"a1\", \"b1\", \"a2\", \"b2\", \"a3\", \"b3\", \"a4\", \"b4\", \"a5\", \"b5\", \"dead\"]\nresponses = [\"a\", \"b\", \"none\"]\n[[operation]]\nname = \"x\"\nresponse = [\"a\", \"a\", \"b\", \"a\", \"b\", \"a\", \"b\", \"a\", \"b\", \"a\", \"b\", \"none\"]\nnext = [\"a1\", \"a2\", \"b2\", \"a3\", \"b3\", \"a4\", \"b4\", \"a5\", \"b5\", \"dead\", \"dead\", \"dead\"]\n[[operation]]\nname = \"y\"\nresponse = [\"b\", \"a\", \"b\", \"a\", \"b\", \"a\", \"b\", \"a\", \"b\", \"a\", \"b\", \"none\"]\nnext = [\"b1\", \"a2\", \"b2\", \"a3\", \"b3\", \"a4\", \"b4\", \"a5\", \"b5\", \"dead\", \"dead\", \"dead\"]\n"
   },
   {
    "path": "catalogue/shot_7",
    "about": {
     "en": "Answers 7 calls with the letter of the first, then forgets it and answers nothing more. Up to 7 processes learn who was first. Of one more, the last is answered nothing and reads an object that has forgotten, so the number is 7.",
     "de": "Beantwortet 7 Aufrufe mit dem Buchstaben des ersten, vergisst ihn dann und antwortet nichts mehr. Bis zu 7 Prozesse erfahren, wer der erste war. Von einem mehr bekommt der letzte keine Antwort und liest ein Objekt, das vergessen hat: die Zahl ist 7."
    },
    "text": "# Answers 7 calls with the letter of the first, then forgets it and answers nothing more.\n# An agreement object that is made to forget; no publication known.\nname = \"shot_7\"\nstates = [\"bot\", \"a1\", \"b1\", \"a2\", \"b2\", \"a3\", \"b3\", \"a4\", \"b4\", \"a5\", \"b5\", \"a6\", \"b6\", \"dead\"]\nresponses = [\"a\", \"b\", \"none\"]\n[[operation]]\nname = \"x\"\nresponse = [\"a\", \"a\", \"b\", \"a\", \"b\", \"a\", \"b\", \"a\", \"b\", \"a\", \"b\", \"a\", \"b\", \"none\"]\nnext = [\"a1\", \"a2\", \"b2\", \"a3\", \"b3\", \"a4\", \"b4\", \"a5\", \"b5\", \"a6\", \"b6\", \"dead\", \"dead\", \"dead\"]\n[[operation]]\nname = \"y\"\nresponse = [\"b\", \"a\", \"b\", \"a\", \"b\", \"a\", \"b\", \"a\", \"b\", \"a\", \"b\", \"a\", \"b\", \"none\"]\nnext = [\"b1\", \"a2\", \"b2\", \"a3\", \"b3\", \"a4\", \"b4\", \"a5\", \"b5\", \"a6\", \"b6\", \"dead\", \"dead\", \"dead\"]\n"
   },
   {
    "path": "catalogue/shot_8",
    "about": {
     "en": "Answers 8 calls with the letter of the first, then forgets it and answers nothing more. Up to 8 processes learn who was first. Of one more, the last is answered nothing and reads an object that has forgotten, so the number is 8.",
     "de": "Beantwortet 8 Aufrufe mit dem Buchstaben des ersten, vergisst ihn dann und antwortet nichts mehr. Bis zu 8 Prozesse erfahren, wer der erste war. Von einem mehr bekommt der letzte keine Antwort und liest ein Objekt, das vergessen hat: die Zahl ist 8."
    },
    "text": "# Answers 8 calls with the letter of the first, then forgets it and answers nothing more.\n# An agreement object that is made to forget; no publication known.\nname = \"shot_8\"\nstates = [\"bot\", \"a1\", \"b1\", \"a2\", \"b2\", \"a3\", \"b3\", \"a4\", \"b4\", \"a5\", \"b5\", \"a6\", \"b6\", \"a7\", \"b7\", \"dead\"]\nresponses = [\"a\", \"b\", \"none\"]\n[[operation]]\nname = \"x\"\nresponse = [\"a\", \"a\", \"b\", \"a\", \"b\", \"a\", \"b\", \"a\", \"b\", \"a\", \"b\", \"a\", \"b\", \"a\", \"b\", \"none\"]\nnext = [\"a1\", \"a2\", \"b2\", \"a3\", \"b3\", \"a4\", \"b4\", \"a5\", \"b5\", \"a6\", \"b6\", \"a7\", \"b7\", \"dead\", \"dead\", \"dead\"]\n[[operation]]\nname = \"y\"\nresponse = [\"b\", \"a\", \"b\", \"a\", \"b\", \"a\", \"b\", \"a\", \"b\", \"a\", \"b\", \"a\", \"b\", \"a\", \"b\", \"none\"]\nnext = [\"b1\", \"a2\", \"b2\", \"a3\", \"b3\", \"a4\", \"b4\", \"a5\", \"b5\", \"a6\", \"b6\", \"a7\", \"b7\", \"dead\", \"dead\", \"dead\"]\n"
   }
  ]
 },
 {
  "name": {
   "en": "Windows",
   "de": "Fenster"
  },
  "types": [
   {
    "path": "catalogue/window_1",
    "about": {
     "en": "Keeps the last bit written; empty at first. The last bit written is all that is to be seen, and a write answers nothing: the number is 1. Literature: 1 (Mostéfaoui, Perrin and Raynal 2018).",
     "de": "Behält das letzte geschriebene Bit; am Anfang leer. Mehr ist nicht zu sehen, und wer schreibt, bekommt nichts zur Antwort: die Zahl ist 1. Literatur: 1 (Mostéfaoui, Perrin and Raynal 2018)."
    },
    "text": "# Keeps the last bit written; empty at first.\n# Sliding-window register: Mostéfaoui, Perrin and Raynal 2018.\nname = \"window_1\"\nstates = [\"w\", \"w0\", \"w1\"]\nresponses = [\"ok\"]\n[[operation]]\nname = \"write0\"\nresponse = [\"ok\", \"ok\", \"ok\"]\nnext = [\"w0\", \"w0\", \"w0\"]\n[[operation]]\nname = \"write1\"\nresponse = [\"ok\", \"ok\", \"ok\"]\nnext = [\"w1\", \"w1\", \"w1\"]\n"
   },
   {
    "path": "catalogue/window_2",
    "about": {
     "en": "Keeps the last 2 of the bits written, in order; empty at first. As long as at most 2 processes have written, the oldest value is that of the first: the number is 2. Nothing is answered, so without a read it is 1. Literature: 2 (Mostéfaoui, Perrin and Raynal 2018).",
     "de": "Behält die letzten 2 geschriebenen Bits, in ihrer Reihenfolge; am Anfang leer. Solange höchstens 2 Prozesse geschrieben haben, ist der älteste Wert der des ersten: die Zahl ist 2. Niemand bekommt etwas zur Antwort, also ist sie ohne Lesen 1. Literatur: 2 (Mostéfaoui, Perrin and Raynal 2018)."
    },
    "text": "# Keeps the last 2 of the bits written, in order; empty at first.\n# Sliding-window register: Mostéfaoui, Perrin and Raynal 2018.\nname = \"window_2\"\nstates = [\"w\", \"w0\", \"w1\", \"w00\", \"w01\", \"w10\", \"w11\"]\nresponses = [\"ok\"]\n[[operation]]\nname = \"write0\"\nresponse = [\"ok\", \"ok\", \"ok\", \"ok\", \"ok\", \"ok\", \"ok\"]\nnext = [\"w0\", \"w00\", \"w10\", \"w00\", \"w10\", \"w00\", \"w10\"]\n[[operation]]\nname = \"write1\"\nresponse = [\"ok\", \"ok\", \"ok\", \"ok\", \"ok\", \"ok\", \"ok\"]\nnext = [\"w1\", \"w01\", \"w11\", \"w01\", \"w11\", \"w01\", \"w11\"]\n"
   },
   {
    "path": "catalogue/window_3",
    "about": {
     "en": "Keeps the last 3 of the bits written, in order; empty at first. As long as at most 3 processes have written, the oldest value is that of the first: the number is 3. Nothing is answered, so without a read it is 1. Literature: 3 (Mostéfaoui, Perrin and Raynal 2018).",
     "de": "Behält die letzten 3 geschriebenen Bits, in ihrer Reihenfolge; am Anfang leer. Solange höchstens 3 Prozesse geschrieben haben, ist der älteste Wert der des ersten: die Zahl ist 3. Niemand bekommt etwas zur Antwort, also ist sie ohne Lesen 1. Literatur: 3 (Mostéfaoui, Perrin and Raynal 2018)."
    },
    "text": "# Keeps the last 3 of the bits written, in order; empty at first.\n# Sliding-window register: Mostéfaoui, Perrin and Raynal 2018.\nname = \"window_3\"\nstates = [\"w\", \"w0\", \"w1\", \"w00\", \"w01\", \"w10\", \"w11\", \"w000\", \"w001\", \"w010\", \"w011\", \"w100\", \"w101\", \"w110\", \"w111\"]\nresponses = [\"ok\"]\n[[operation]]\nname = \"write0\"\nresponse = [\"ok\", \"ok\", \"ok\", \"ok\", \"ok\", \"ok\", \"ok\", \"ok\", \"ok\", \"ok\", \"ok\", \"ok\", \"ok\", \"ok\", \"ok\"]\nnext = [\"w0\", \"w00\", \"w10\", \"w000\", \"w010\", \"w100\", \"w110\", \"w000\", \"w010\", \"w100\", \"w110\", \"w000\", \"w010\", \"w100\", \"w110\"]\n[[operation]]\nname = \"write1\"\nresponse = [\"ok\", \"ok\", \"ok\", \"ok\", \"ok\", \"ok\", \"ok\", \"ok\", \"ok\", \"ok\", \"ok\", \"ok\", \"ok\", \"ok\", \"ok\"]\nnext = [\"w1\", \"w01\", \"w11\", \"w001\", \"w011\", \"w101\", \"w111\", \"w001\", \"w011\", \"w101\", \"w111\", \"w001\", \"w011\", \"w101\", \"w111\"]\n"
   },
   {
    "path": "catalogue/window_2_of_3",
    "about": {
     "en": "Keeps the last 2 of the values written, of three, in order; empty at first. As long as at most 2 processes have written, the oldest value is that of the first: the number is 2. Nothing is answered, so without a read it is 1. Literature: 2 (Mostéfaoui, Perrin and Raynal 2018).",
     "de": "Behält die letzten 2 geschriebenen Werte, von dreien, in ihrer Reihenfolge; am Anfang leer. Solange höchstens 2 Prozesse geschrieben haben, ist der ältere Wert der des ersten: die Zahl ist 2. Niemand bekommt etwas zur Antwort, also ist sie ohne Lesen 1. Literatur: 2 (Mostéfaoui, Perrin and Raynal 2018)."
    },
    "text": "# Keeps the last 2 of the values written, of three, in order; empty at first.\n# Sliding-window register: Mostéfaoui, Perrin and Raynal 2018.\nname = \"window_2_of_3\"\nstates = [\"w\", \"w0\", \"w1\", \"w2\", \"w00\", \"w01\", \"w02\", \"w10\", \"w11\", \"w12\", \"w20\", \"w21\", \"w22\"]\nresponses = [\"ok\"]\n[[operation]]\nname = \"write0\"\nresponse = [\"ok\", \"ok\", \"ok\", \"ok\", \"ok\", \"ok\", \"ok\", \"ok\", \"ok\", \"ok\", \"ok\", \"ok\", \"ok\"]\nnext = [\"w0\", \"w00\", \"w10\", \"w20\", \"w00\", \"w10\", \"w20\", \"w00\", \"w10\", \"w20\", \"w00\", \"w10\", \"w20\"]\n[[operation]]\nname = \"write1\"\nresponse = [\"ok\", \"ok\", \"ok\", \"ok\", \"ok\", \"ok\", \"ok\", \"ok\", \"ok\", \"ok\", \"ok\", \"ok\", \"ok\"]\nnext = [\"w1\", \"w01\", \"w11\", \"w21\", \"w01\", \"w11\", \"w21\", \"w01\", \"w11\", \"w21\", \"w01\", \"w11\", \"w21\"]\n[[operation]]\nname = \"write2\"\nresponse = [\"ok\", \"ok\", \"ok\", \"ok\", \"ok\", \"ok\", \"ok\", \"ok\", \"ok\", \"ok\", \"ok\", \"ok\", \"ok\"]\nnext = [\"w2\", \"w02\", \"w12\", \"w22\", \"w02\", \"w12\", \"w22\", \"w02\", \"w12\", \"w22\", \"w02\", \"w12\", \"w22\"]\n"
   },
   {
    "path": "catalogue/window_2_full",
    "about": {
     "en": "Keeps the last 2 of the bits written, in order; full from the start. Both values in it are old, and nothing marks an empty place, so two writers do not learn who was first: the number is 1, one less than that of a window that starts empty.",
     "de": "Behält die letzten 2 geschriebenen Bits, in ihrer Reihenfolge; von Anfang an voll. Kein Zeichen steht für einen leeren Platz, also erkennen zwei nicht, wer zuerst schrieb: die Zahl ist 1, eins weniger als bei einem Fenster, das leer beginnt."
    },
    "text": "# Keeps the last 2 of the bits written, in order; full from the start.\n# Sliding-window register of Mostéfaoui, Perrin and Raynal 2018, but for the start.\nname = \"window_2_full\"\nstates = [\"w00\", \"w01\", \"w10\", \"w11\"]\nresponses = [\"ok\"]\n[[operation]]\nname = \"write0\"\nresponse = [\"ok\", \"ok\", \"ok\", \"ok\"]\nnext = [\"w00\", \"w10\", \"w00\", \"w10\"]\n[[operation]]\nname = \"write1\"\nresponse = [\"ok\", \"ok\", \"ok\", \"ok\"]\nnext = [\"w01\", \"w11\", \"w01\", \"w11\"]\n"
   },
   {
    "path": "catalogue/window_3_full",
    "about": {
     "en": "Keeps the last 3 of the bits written, in order; full from the start. From 001, the old 1 marks where the first value stands, as long as at most 2 processes have written: the number is 2, one less than that of a window that starts empty. Nothing is answered, so without a read it is 1.",
     "de": "Behält die letzten 3 geschriebenen Bits, in ihrer Reihenfolge; von Anfang an voll. Ab 001 zeigt die alte 1, wo der erste Wert steht, solange höchstens 2 Prozesse geschrieben haben: die Zahl ist 2, eins weniger als bei einem Fenster, das leer beginnt. Niemand bekommt etwas zur Antwort, also ist sie ohne Lesen 1."
    },
    "text": "# Keeps the last 3 of the bits written, in order; full from the start.\n# Sliding-window register of Mostéfaoui, Perrin and Raynal 2018, but for the start.\nname = \"window_3_full\"\nstates = [\"w000\", \"w001\", \"w010\", \"w011\", \"w100\", \"w101\", \"w110\", \"w111\"]\nresponses = [\"ok\"]\n[[operation]]\nname = \"write0\"\nresponse = [\"ok\", \"ok\", \"ok\", \"ok\", \"ok\", \"ok\", \"ok\", \"ok\"]\nnext = [\"w000\", \"w010\", \"w100\", \"w110\", \"w000\", \"w010\", \"w100\", \"w110\"]\n[[operation]]\nname = \"write1\"\nresponse = [\"ok\", \"ok\", \"ok\", \"ok\", \"ok\", \"ok\", \"ok\", \"ok\"]\nnext = [\"w001\", \"w011\", \"w101\", \"w111\", \"w001\", \"w011\", \"w101\", \"w111\"]\n"
   },
   {
    "path": "catalogue/window_4_full",
    "about": {
     "en": "Keeps the last 4 of the bits written, in order; full from the start. From 0001, the old 1 marks where the first value stands, as long as at most 3 processes have written: the number is 3, one less than that of a window that starts empty. Nothing is answered, so without a read it is 1.",
     "de": "Behält die letzten 4 geschriebenen Bits, in ihrer Reihenfolge; von Anfang an voll. Ab 0001 zeigt die alte 1, wo der erste Wert steht, solange höchstens 3 Prozesse geschrieben haben: die Zahl ist 3, eins weniger als bei einem Fenster, das leer beginnt. Niemand bekommt etwas zur Antwort, also ist sie ohne Lesen 1."
    },
    "text": "# Keeps the last 4 of the bits written, in order; full from the start.\n# Sliding-window register of Mostéfaoui, Perrin and Raynal 2018, but for the start.\nname = \"window_4_full\"\nstates = [\"w0000\", \"w0001\", \"w0010\", \"w0011\", \"w0100\", \"w0101\", \"w0110\", \"w0111\", \"w1000\", \"w1001\", \"w1010\", \"w1011\", \"w1100\", \"w1101\", \"w1110\", \"w1111\"]\nresponses = [\"ok\"]\n[[operation]]\nname = \"write0\"\nresponse = [\"ok\", \"ok\", \"ok\", \"ok\", \"ok\", \"ok\", \"ok\", \"ok\", \"ok\", \"ok\", \"ok\", \"ok\", \"ok\", \"ok\", \"ok\", \"ok\"]\nnext = [\"w0000\", \"w0010\", \"w0100\", \"w0110\", \"w1000\", \"w1010\", \"w1100\", \"w1110\", \"w0000\", \"w0010\", \"w0100\", \"w0110\", \"w1000\", \"w1010\", \"w1100\", \"w1110\"]\n[[operation]]\nname = \"write1\"\nresponse = [\"ok\", \"ok\", \"ok\", \"ok\", \"ok\", \"ok\", \"ok\", \"ok\", \"ok\", \"ok\", \"ok\", \"ok\", \"ok\", \"ok\", \"ok\", \"ok\"]\nnext = [\"w0001\", \"w0011\", \"w0101\", \"w0111\", \"w1001\", \"w1011\", \"w1101\", \"w1111\", \"w0001\", \"w0011\", \"w0101\", \"w0111\", \"w1001\", \"w1011\", \"w1101\", \"w1111\"]\n"
   },
   {
    "path": "catalogue/window_2_of_3_full",
    "about": {
     "en": "Keeps the last 2 of the values written, of three, in order; full from the start. The third value marks the old places, as if they were empty: the number is 2. Nothing is answered, so without a read it is 1.",
     "de": "Behält die letzten 2 geschriebenen Werte, von dreien, in ihrer Reihenfolge; von Anfang an voll. Der dritte Wert zeigt die alten Plätze, als wären sie leer: die Zahl ist 2. Niemand bekommt etwas zur Antwort, also ist sie ohne Lesen 1."
    },
    "text": "# Keeps the last 2 of the values written, of three, in order; full from the start.\n# Sliding-window register of Mostéfaoui, Perrin and Raynal 2018, but for the start.\nname = \"window_2_of_3_full\"\nstates = [\"w00\", \"w01\", \"w02\", \"w10\", \"w11\", \"w12\", \"w20\", \"w21\", \"w22\"]\nresponses = [\"ok\"]\n[[operation]]\nname = \"write0\"\nresponse = [\"ok\", \"ok\", \"ok\", \"ok\", \"ok\", \"ok\", \"ok\", \"ok\", \"ok\"]\nnext = [\"w00\", \"w10\", \"w20\", \"w00\", \"w10\", \"w20\", \"w00\", \"w10\", \"w20\"]\n[[operation]]\nname = \"write1\"\nresponse = [\"ok\", \"ok\", \"ok\", \"ok\", \"ok\", \"ok\", \"ok\", \"ok\", \"ok\"]\nnext = [\"w01\", \"w11\", \"w21\", \"w01\", \"w11\", \"w21\", \"w01\", \"w11\", \"w21\"]\n[[operation]]\nname = \"write2\"\nresponse = [\"ok\", \"ok\", \"ok\", \"ok\", \"ok\", \"ok\", \"ok\", \"ok\", \"ok\"]\nnext = [\"w02\", \"w12\", \"w22\", \"w02\", \"w12\", \"w22\", \"w02\", \"w12\", \"w22\"]\n"
   }
  ]
 },
 {
  "name": {
   "en": "Fetch-and-add",
   "de": "Fetch-and-add"
  },
  "types": [
   {
    "path": "catalogue/fetch_inc_mod2",
    "about": {
     "en": "A counter modulo 2 whose increment answers with the count before it. Increments commute, so a third process does not learn who was first. Two from 0 are answered 0 and 1: the number is 2. Literature: 2, for a counter without bound (Herlihy 1991).",
     "de": "Ein Zähler modulo 2, dessen Erhöhen mit dem Stand davor antwortet. Erhöhungen vertauschen, also erfährt ein dritter Prozess nicht, wer der erste war. Zwei ab 0 bekommen 0 und 1 zur Antwort: die Zahl ist 2. Literatur: 2, für einen Zähler ohne Grenze (Herlihy 1991)."
    },
    "text": "# A counter modulo 2 whose increment answers with the count before it.\n# Fetch-and-add of 1: Herlihy 1991.\nname = \"fetch_inc_mod2\"\nstates = [\"0\", \"1\"]\nresponses = [\"0\", \"1\"]\n[[operation]]\nname = \"fetch_inc\"\nresponse = [\"0\", \"1\"]\nnext = [\"1\", \"0\"]\n"
   },
   {
    "path": "catalogue/fetch_inc_mod3",
    "about": {
     "en": "A counter modulo 3 whose increment answers with the count before it. Increments commute, so a third process does not learn who was first. Two from 0 are answered 0 and 1: the number is 2. Literature: 2, for a counter without bound (Herlihy 1991).",
     "de": "Ein Zähler modulo 3, dessen Erhöhen mit dem Stand davor antwortet. Erhöhungen vertauschen, also erfährt ein dritter Prozess nicht, wer der erste war. Zwei ab 0 bekommen 0 und 1 zur Antwort: die Zahl ist 2. Literatur: 2, für einen Zähler ohne Grenze (Herlihy 1991)."
    },
    "text": "# A counter modulo 3 whose increment answers with the count before it.\n# Fetch-and-add of 1: Herlihy 1991.\nname = \"fetch_inc_mod3\"\nstates = [\"0\", \"1\", \"2\"]\nresponses = [\"0\", \"1\", \"2\"]\n[[operation]]\nname = \"fetch_inc\"\nresponse = [\"0\", \"1\", \"2\"]\nnext = [\"1\", \"2\", \"0\"]\n"
   },
   {
    "path": "catalogue/fetch_inc_mod4",
    "about": {
     "en": "A counter modulo 4 whose increment answers with the count before it. Increments commute, so a third process does not learn who was first. Two from 0 are answered 0 and 1: the number is 2. Literature: 2, for a counter without bound (Herlihy 1991).",
     "de": "Ein Zähler modulo 4, dessen Erhöhen mit dem Stand davor antwortet. Erhöhungen vertauschen, also erfährt ein dritter Prozess nicht, wer der erste war. Zwei ab 0 bekommen 0 und 1 zur Antwort: die Zahl ist 2. Literatur: 2, für einen Zähler ohne Grenze (Herlihy 1991)."
    },
    "text": "# A counter modulo 4 whose increment answers with the count before it.\n# Fetch-and-add of 1: Herlihy 1991.\nname = \"fetch_inc_mod4\"\nstates = [\"0\", \"1\", \"2\", \"3\"]\nresponses = [\"0\", \"1\", \"2\", \"3\"]\n[[operation]]\nname = \"fetch_inc\"\nresponse = [\"0\", \"1\", \"2\", \"3\"]\nnext = [\"1\", \"2\", \"3\", \"0\"]\n"
   },
   {
    "path": "catalogue/fetch_inc_mod5",
    "about": {
     "en": "A counter modulo 5 whose increment answers with the count before it. Increments commute, so a third process does not learn who was first. Two from 0 are answered 0 and 1: the number is 2. Literature: 2, for a counter without bound (Herlihy 1991).",
     "de": "Ein Zähler modulo 5, dessen Erhöhen mit dem Stand davor antwortet. Erhöhungen vertauschen, also erfährt ein dritter Prozess nicht, wer der erste war. Zwei ab 0 bekommen 0 und 1 zur Antwort: die Zahl ist 2. Literatur: 2, für einen Zähler ohne Grenze (Herlihy 1991)."
    },
    "text": "# A counter modulo 5 whose increment answers with the count before it.\n# Fetch-and-add of 1: Herlihy 1991.\nname = \"fetch_inc_mod5\"\nstates = [\"0\", \"1\", \"2\", \"3\", \"4\"]\nresponses = [\"0\", \"1\", \"2\", \"3\", \"4\"]\n[[operation]]\nname = \"fetch_inc\"\nresponse = [\"0\", \"1\", \"2\", \"3\", \"4\"]\nnext = [\"1\", \"2\", \"3\", \"4\", \"0\"]\n"
   },
   {
    "path": "catalogue/fetch_inc_mod6",
    "about": {
     "en": "A counter modulo 6 whose increment answers with the count before it. Increments commute, so a third process does not learn who was first. Two from 0 are answered 0 and 1: the number is 2. Literature: 2, for a counter without bound (Herlihy 1991).",
     "de": "Ein Zähler modulo 6, dessen Erhöhen mit dem Stand davor antwortet. Erhöhungen vertauschen, also erfährt ein dritter Prozess nicht, wer der erste war. Zwei ab 0 bekommen 0 und 1 zur Antwort: die Zahl ist 2. Literatur: 2, für einen Zähler ohne Grenze (Herlihy 1991)."
    },
    "text": "# A counter modulo 6 whose increment answers with the count before it.\n# Fetch-and-add of 1: Herlihy 1991.\nname = \"fetch_inc_mod6\"\nstates = [\"0\", \"1\", \"2\", \"3\", \"4\", \"5\"]\nresponses = [\"0\", \"1\", \"2\", \"3\", \"4\", \"5\"]\n[[operation]]\nname = \"fetch_inc\"\nresponse = [\"0\", \"1\", \"2\", \"3\", \"4\", \"5\"]\nnext = [\"1\", \"2\", \"3\", \"4\", \"5\", \"0\"]\n"
   },
   {
    "path": "catalogue/fetch_inc_mod7",
    "about": {
     "en": "A counter modulo 7 whose increment answers with the count before it. Increments commute, so a third process does not learn who was first. Two from 0 are answered 0 and 1: the number is 2. Literature: 2, for a counter without bound (Herlihy 1991).",
     "de": "Ein Zähler modulo 7, dessen Erhöhen mit dem Stand davor antwortet. Erhöhungen vertauschen, also erfährt ein dritter Prozess nicht, wer der erste war. Zwei ab 0 bekommen 0 und 1 zur Antwort: die Zahl ist 2. Literatur: 2, für einen Zähler ohne Grenze (Herlihy 1991)."
    },
    "text": "# A counter modulo 7 whose increment answers with the count before it.\n# Fetch-and-add of 1: Herlihy 1991.\nname = \"fetch_inc_mod7\"\nstates = [\"0\", \"1\", \"2\", \"3\", \"4\", \"5\", \"6\"]\nresponses = [\"0\", \"1\", \"2\", \"3\", \"4\", \"5\", \"6\"]\n[[operation]]\nname = \"fetch_inc\"\nresponse = [\"0\", \"1\", \"2\", \"3\", \"4\", \"5\", \"6\"]\nnext = [\"1\", \"2\", \"3\", \"4\", \"5\", \"6\", \"0\"]\n"
   },
   {
    "path": "catalogue/fetch_inc_mod8",
    "about": {
     "en": "A counter modulo 8 whose increment answers with the count before it. Increments commute, so a third process does not learn who was first. Two from 0 are answered 0 and 1: the number is 2. Literature: 2, for a counter without bound (Herlihy 1991).",
     "de": "Ein Zähler modulo 8, dessen Erhöhen mit dem Stand davor antwortet. Erhöhungen vertauschen, also erfährt ein dritter Prozess nicht, wer der erste war. Zwei ab 0 bekommen 0 und 1 zur Antwort: die Zahl ist 2. Literatur: 2, für einen Zähler ohne Grenze (Herlihy 1991)."
    },
    "text": "# A counter modulo 8 whose increment answers with the count before it.\n# Fetch-and-add of 1: Herlihy 1991.\nname = \"fetch_inc_mod8\"\nstates = [\"0\", \"1\", \"2\", \"3\", \"4\", \"5\", \"6\", \"7\"]\nresponses = [\"0\", \"1\", \"2\", \"3\", \"4\", \"5\", \"6\", \"7\"]\n[[operation]]\nname = \"fetch_inc\"\nresponse = [\"0\", \"1\", \"2\", \"3\", \"4\", \"5\", \"6\", \"7\"]\nnext = [\"1\", \"2\", \"3\", \"4\", \"5\", \"6\", \"7\", \"0\"]\n"
   },
   {
    "path": "catalogue/fetch_inc_mod9",
    "about": {
     "en": "A counter modulo 9 whose increment answers with the count before it. Increments commute, so a third process does not learn who was first. Two from 0 are answered 0 and 1: the number is 2. Literature: 2, for a counter without bound (Herlihy 1991).",
     "de": "Ein Zähler modulo 9, dessen Erhöhen mit dem Stand davor antwortet. Erhöhungen vertauschen, also erfährt ein dritter Prozess nicht, wer der erste war. Zwei ab 0 bekommen 0 und 1 zur Antwort: die Zahl ist 2. Literatur: 2, für einen Zähler ohne Grenze (Herlihy 1991)."
    },
    "text": "# A counter modulo 9 whose increment answers with the count before it.\n# Fetch-and-add of 1: Herlihy 1991.\nname = \"fetch_inc_mod9\"\nstates = [\"0\", \"1\", \"2\", \"3\", \"4\", \"5\", \"6\", \"7\", \"8\"]\nresponses = [\"0\", \"1\", \"2\", \"3\", \"4\", \"5\", \"6\", \"7\", \"8\"]\n[[operation]]\nname = \"fetch_inc\"\nresponse = [\"0\", \"1\", \"2\", \"3\", \"4\", \"5\", \"6\", \"7\", \"8\"]\nnext = [\"1\", \"2\", \"3\", \"4\", \"5\", \"6\", \"7\", \"8\", \"0\"]\n"
   },
   {
    "path": "catalogue/fetch_inc_mod10",
    "about": {
     "en": "A counter modulo 10 whose increment answers with the count before it. Increments commute, so a third process does not learn who was first. Two from 0 are answered 0 and 1: the number is 2. Literature: 2, for a counter without bound (Herlihy 1991).",
     "de": "Ein Zähler modulo 10, dessen Erhöhen mit dem Stand davor antwortet. Erhöhungen vertauschen, also erfährt ein dritter Prozess nicht, wer der erste war. Zwei ab 0 bekommen 0 und 1 zur Antwort: die Zahl ist 2. Literatur: 2, für einen Zähler ohne Grenze (Herlihy 1991)."
    },
    "text": "# A counter modulo 10 whose increment answers with the count before it.\n# Fetch-and-add of 1: Herlihy 1991.\nname = \"fetch_inc_mod10\"\nstates = [\"0\", \"1\", \"2\", \"3\", \"4\", \"5\", \"6\", \"7\", \"8\", \"9\"]\nresponses = [\"0\", \"1\", \"2\", \"3\", \"4\", \"5\", \"6\", \"7\", \"8\", \"9\"]\n[[operation]]\nname = \"fetch_inc\"\nresponse = [\"0\", \"1\", \"2\", \"3\", \"4\", \"5\", \"6\", \"7\", \"8\", \"9\"]\nnext = [\"1\", \"2\", \"3\", \"4\", \"5\", \"6\", \"7\", \"8\", \"9\", \"0\"]\n"
   },
   {
    "path": "catalogue/fetch_inc_mod11",
    "about": {
     "en": "A counter modulo 11 whose increment answers with the count before it. Increments commute, so a third process does not learn who was first. Two from 0 are answered 0 and 1: the number is 2. Literature: 2, for a counter without bound (Herlihy 1991).",
     "de": "Ein Zähler modulo 11, dessen Erhöhen mit dem Stand davor antwortet. Erhöhungen vertauschen, also erfährt ein dritter Prozess nicht, wer der erste war. Zwei ab 0 bekommen 0 und 1 zur Antwort: die Zahl ist 2. Literatur: 2, für einen Zähler ohne Grenze (Herlihy 1991)."
    },
    "text": "# A counter modulo 11 whose increment answers with the count before it.\n# Fetch-and-add of 1: Herlihy 1991.\nname = \"fetch_inc_mod11\"\nstates = [\"0\", \"1\", \"2\", \"3\", \"4\", \"5\", \"6\", \"7\", \"8\", \"9\", \"10\"]\nresponses = [\"0\", \"1\", \"2\", \"3\", \"4\", \"5\", \"6\", \"7\", \"8\", \"9\", \"10\"]\n[[operation]]\nname = \"fetch_inc\"\nresponse = [\"0\", \"1\", \"2\", \"3\", \"4\", \"5\", \"6\", \"7\", \"8\", \"9\", \"10\"]\nnext = [\"1\", \"2\", \"3\", \"4\", \"5\", \"6\", \"7\", \"8\", \"9\", \"10\", \"0\"]\n"
   },
   {
    "path": "catalogue/fetch_inc_mod12",
    "about": {
     "en": "A counter modulo 12 whose increment answers with the count before it. Increments commute, so a third process does not learn who was first. Two from 0 are answered 0 and 1: the number is 2. Literature: 2, for a counter without bound (Herlihy 1991).",
     "de": "Ein Zähler modulo 12, dessen Erhöhen mit dem Stand davor antwortet. Erhöhungen vertauschen, also erfährt ein dritter Prozess nicht, wer der erste war. Zwei ab 0 bekommen 0 und 1 zur Antwort: die Zahl ist 2. Literatur: 2, für einen Zähler ohne Grenze (Herlihy 1991)."
    },
    "text": "# A counter modulo 12 whose increment answers with the count before it.\n# Fetch-and-add of 1: Herlihy 1991.\nname = \"fetch_inc_mod12\"\nstates = [\"0\", \"1\", \"2\", \"3\", \"4\", \"5\", \"6\", \"7\", \"8\", \"9\", \"10\", \"11\"]\nresponses = [\"0\", \"1\", \"2\", \"3\", \"4\", \"5\", \"6\", \"7\", \"8\", \"9\", \"10\", \"11\"]\n[[operation]]\nname = \"fetch_inc\"\nresponse = [\"0\", \"1\", \"2\", \"3\", \"4\", \"5\", \"6\", \"7\", \"8\", \"9\", \"10\", \"11\"]\nnext = [\"1\", \"2\", \"3\", \"4\", \"5\", \"6\", \"7\", \"8\", \"9\", \"10\", \"11\", \"0\"]\n"
   },
   {
    "path": "catalogue/fetch_inc_mod13",
    "about": {
     "en": "A counter modulo 13 whose increment answers with the count before it. Increments commute, so a third process does not learn who was first. Two from 0 are answered 0 and 1: the number is 2. Literature: 2, for a counter without bound (Herlihy 1991).",
     "de": "Ein Zähler modulo 13, dessen Erhöhen mit dem Stand davor antwortet. Erhöhungen vertauschen, also erfährt ein dritter Prozess nicht, wer der erste war. Zwei ab 0 bekommen 0 und 1 zur Antwort: die Zahl ist 2. Literatur: 2, für einen Zähler ohne Grenze (Herlihy 1991)."
    },
    "text": "# A counter modulo 13 whose increment answers with the count before it.\n# Fetch-and-add of 1: Herlihy 1991.\nname = \"fetch_inc_mod13\"\nstates = [\"0\", \"1\", \"2\", \"3\", \"4\", \"5\", \"6\", \"7\", \"8\", \"9\", \"10\", \"11\", \"12\"]\nresponses = [\"0\", \"1\", \"2\", \"3\", \"4\", \"5\", \"6\", \"7\", \"8\", \"9\", \"10\", \"11\", \"12\"]\n[[operation]]\nname = \"fetch_inc\"\nresponse = [\"0\", \"1\", \"2\", \"3\", \"4\", \"5\", \"6\", \"7\", \"8\", \"9\", \"10\", \"11\", \"12\"]\nnext = [\"1\", \"2\", \"3\", \"4\", \"5\", \"6\", \"7\", \"8\", \"9\", \"10\", \"11\", \"12\", \"0\"]\n"
   },
   {
    "path": "catalogue/fetch_inc_mod14",
    "about": {
     "en": "A counter modulo 14 whose increment answers with the count before it. Increments commute, so a third process does not learn who was first. Two from 0 are answered 0 and 1: the number is 2. Literature: 2, for a counter without bound (Herlihy 1991).",
     "de": "Ein Zähler modulo 14, dessen Erhöhen mit dem Stand davor antwortet. Erhöhungen vertauschen, also erfährt ein dritter Prozess nicht, wer der erste war. Zwei ab 0 bekommen 0 und 1 zur Antwort: die Zahl ist 2. Literatur: 2, für einen Zähler ohne Grenze (Herlihy 1991)."
    },
    "text": "# A counter modulo 14 whose increment answers with the count before it.\n# Fetch-and-add of 1: Herlihy 1991.\nname = \"fetch_inc_mod14\"\nstates = [\"0\", \"1\", \"2\", \"3\", \"4\", \"5\", \"6\", \"7\", \"8\", \"9\", \"10\", \"11\", \"12\", \"13\"]\nresponses = [\"0\", \"1\", \"2\", \"3\", \"4\", \"5\", \"6\", \"7\", \"8\", \"9\", \"10\", \"11\", \"12\", \"13\"]\n[[operation]]\nname = \"fetch_inc\"\nresponse = [\"0\", \"1\", \"2\", \"3\", \"4\", \"5\", \"6\", \"7\", \"8\", \"9\", \"10\", \"11\", \"12\", \"13\"]\nnext = [\"1\", \"2\", \"3\", \"4\", \"5\", \"6\", \"7\", \"8\", \"9\", \"10\", \"11\", \"12\", \"13\", \"0\"]\n"
   },
   {
    "path": "catalogue/fetch_inc_mod15",
    "about": {
     "en": "A counter modulo 15 whose increment answers with the count before it. Increments commute, so a third process does not learn who was first. Two from 0 are answered 0 and 1: the number is 2. Literature: 2, for a counter without bound (Herlihy 1991).",
     "de": "Ein Zähler modulo 15, dessen Erhöhen mit dem Stand davor antwortet. Erhöhungen vertauschen, also erfährt ein dritter Prozess nicht, wer der erste war. Zwei ab 0 bekommen 0 und 1 zur Antwort: die Zahl ist 2. Literatur: 2, für einen Zähler ohne Grenze (Herlihy 1991)."
    },
    "text": "# A counter modulo 15 whose increment answers with the count before it.\n# Fetch-and-add of 1: Herlihy 1991.\nname = \"fetch_inc_mod15\"\nstates = [\"0\", \"1\", \"2\", \"3\", \"4\", \"5\", \"6\", \"7\", \"8\", \"9\", \"10\", \"11\", \"12\", \"13\", \"14\"]\nresponses = [\"0\", \"1\", \"2\", \"3\", \"4\", \"5\", \"6\", \"7\", \"8\", \"9\", \"10\", \"11\", \"12\", \"13\", \"14\"]\n[[operation]]\nname = \"fetch_inc\"\nresponse = [\"0\", \"1\", \"2\", \"3\", \"4\", \"5\", \"6\", \"7\", \"8\", \"9\", \"10\", \"11\", \"12\", \"13\", \"14\"]\nnext = [\"1\", \"2\", \"3\", \"4\", \"5\", \"6\", \"7\", \"8\", \"9\", \"10\", \"11\", \"12\", \"13\", \"14\", \"0\"]\n"
   },
   {
    "path": "catalogue/fetch_inc_mod16",
    "about": {
     "en": "A counter modulo 16 whose increment answers with the count before it. Increments commute, so a third process does not learn who was first. Two from 0 are answered 0 and 1: the number is 2. Literature: 2, for a counter without bound (Herlihy 1991).",
     "de": "Ein Zähler modulo 16, dessen Erhöhen mit dem Stand davor antwortet. Erhöhungen vertauschen, also erfährt ein dritter Prozess nicht, wer der erste war. Zwei ab 0 bekommen 0 und 1 zur Antwort: die Zahl ist 2. Literatur: 2, für einen Zähler ohne Grenze (Herlihy 1991)."
    },
    "text": "# A counter modulo 16 whose increment answers with the count before it.\n# Fetch-and-add of 1: Herlihy 1991.\nname = \"fetch_inc_mod16\"\nstates = [\"0\", \"1\", \"2\", \"3\", \"4\", \"5\", \"6\", \"7\", \"8\", \"9\", \"10\", \"11\", \"12\", \"13\", \"14\", \"15\"]\nresponses = [\"0\", \"1\", \"2\", \"3\", \"4\", \"5\", \"6\", \"7\", \"8\", \"9\", \"10\", \"11\", \"12\", \"13\", \"14\", \"15\"]\n[[operation]]\nname = \"fetch_inc\"\nresponse = [\"0\", \"1\", \"2\", \"3\", \"4\", \"5\", \"6\", \"7\", \"8\", \"9\", \"10\", \"11\", \"12\", \"13\", \"14\", \"15\"]\nnext = [\"1\", \"2\", \"3\", \"4\", \"5\", \"6\", \"7\", \"8\", \"9\", \"10\", \"11\", \"12\", \"13\", \"14\", \"15\", \"0\"]\n"
   },
   {
    "path": "catalogue/fetch_add_mod3",
    "about": {
     "en": "A counter modulo 3 to which any number from 1 to 2 is added, with the count before it as the answer. Additions commute, so a third process does not learn who was first. Two additions of 1 to 0 are answered 0 and 1: the number is 2. Literature: 2, for a counter without bound (Herlihy 1991).",
     "de": "Ein Zähler modulo 3, zu dem jede kleinere Zahl ab 1 addiert wird, mit dem Stand davor als Antwort. Additionen vertauschen, also erfährt ein dritter Prozess nicht, wer der erste war. Zwei Additionen von 1 zu 0 bekommen 0 und 1 zur Antwort: die Zahl ist 2. Literatur: 2, für einen Zähler ohne Grenze (Herlihy 1991)."
    },
    "text": "# A counter modulo 3 to which any number from 1 to 2 is added, with the count before it as the answer.\n# Fetch-and-add: Herlihy 1991.\nname = \"fetch_add_mod3\"\nstates = [\"0\", \"1\", \"2\"]\nresponses = [\"0\", \"1\", \"2\"]\n[[operation]]\nname = \"fetch_add1\"\nresponse = [\"0\", \"1\", \"2\"]\nnext = [\"1\", \"2\", \"0\"]\n[[operation]]\nname = \"fetch_add2\"\nresponse = [\"0\", \"1\", \"2\"]\nnext = [\"2\", \"0\", \"1\"]\n"
   },
   {
    "path": "catalogue/fetch_add_mod4",
    "about": {
     "en": "A counter modulo 4 to which any number from 1 to 3 is added, with the count before it as the answer. Additions commute, so a third process does not learn who was first. Two additions of 1 to 0 are answered 0 and 1: the number is 2. Literature: 2, for a counter without bound (Herlihy 1991).",
     "de": "Ein Zähler modulo 4, zu dem jede kleinere Zahl ab 1 addiert wird, mit dem Stand davor als Antwort. Additionen vertauschen, also erfährt ein dritter Prozess nicht, wer der erste war. Zwei Additionen von 1 zu 0 bekommen 0 und 1 zur Antwort: die Zahl ist 2. Literatur: 2, für einen Zähler ohne Grenze (Herlihy 1991)."
    },
    "text": "# A counter modulo 4 to which any number from 1 to 3 is added, with the count before it as the answer.\n# Fetch-and-add: Herlihy 1991.\nname = \"fetch_add_mod4\"\nstates = [\"0\", \"1\", \"2\", \"3\"]\nresponses = [\"0\", \"1\", \"2\", \"3\"]\n[[operation]]\nname = \"fetch_add1\"\nresponse = [\"0\", \"1\", \"2\", \"3\"]\nnext = [\"1\", \"2\", \"3\", \"0\"]\n[[operation]]\nname = \"fetch_add2\"\nresponse = [\"0\", \"1\", \"2\", \"3\"]\nnext = [\"2\", \"3\", \"0\", \"1\"]\n[[operation]]\nname = \"fetch_add3\"\nresponse = [\"0\", \"1\", \"2\", \"3\"]\nnext = [\"3\", \"0\", \"1\", \"2\"]\n"
   },
   {
    "path": "catalogue/fetch_add_mod5",
    "about": {
     "en": "A counter modulo 5 to which any number from 1 to 4 is added, with the count before it as the answer. Additions commute, so a third process does not learn who was first. Two additions of 1 to 0 are answered 0 and 1: the number is 2. Literature: 2, for a counter without bound (Herlihy 1991).",
     "de": "Ein Zähler modulo 5, zu dem jede kleinere Zahl ab 1 addiert wird, mit dem Stand davor als Antwort. Additionen vertauschen, also erfährt ein dritter Prozess nicht, wer der erste war. Zwei Additionen von 1 zu 0 bekommen 0 und 1 zur Antwort: die Zahl ist 2. Literatur: 2, für einen Zähler ohne Grenze (Herlihy 1991)."
    },
    "text": "# A counter modulo 5 to which any number from 1 to 4 is added, with the count before it as the answer.\n# Fetch-and-add: Herlihy 1991.\nname = \"fetch_add_mod5\"\nstates = [\"0\", \"1\", \"2\", \"3\", \"4\"]\nresponses = [\"0\", \"1\", \"2\", \"3\", \"4\"]\n[[operation]]\nname = \"fetch_add1\"\nresponse = [\"0\", \"1\", \"2\", \"3\", \"4\"]\nnext = [\"1\", \"2\", \"3\", \"4\", \"0\"]\n[[operation]]\nname = \"fetch_add2\"\nresponse = [\"0\", \"1\", \"2\", \"3\", \"4\"]\nnext = [\"2\", \"3\", \"4\", \"0\", \"1\"]\n[[operation]]\nname = \"fetch_add3\"\nresponse = [\"0\", \"1\", \"2\", \"3\", \"4\"]\nnext = [\"3\", \"4\", \"0\", \"1\", \"2\"]\n[[operation]]\nname = \"fetch_add4\"\nresponse = [\"0\", \"1\", \"2\", \"3\", \"4\"]\nnext = [\"4\", \"0\", \"1\", \"2\", \"3\"]\n"
   },
   {
    "path": "catalogue/fetch_add_mod6",
    "about": {
     "en": "A counter modulo 6 to which any number from 1 to 5 is added, with the count before it as the answer. Additions commute, so a third process does not learn who was first. Two additions of 1 to 0 are answered 0 and 1: the number is 2. Literature: 2, for a counter without bound (Herlihy 1991).",
     "de": "Ein Zähler modulo 6, zu dem jede kleinere Zahl ab 1 addiert wird, mit dem Stand davor als Antwort. Additionen vertauschen, also erfährt ein dritter Prozess nicht, wer der erste war. Zwei Additionen von 1 zu 0 bekommen 0 und 1 zur Antwort: die Zahl ist 2. Literatur: 2, für einen Zähler ohne Grenze (Herlihy 1991)."
    },
    "text": "# A counter modulo 6 to which any number from 1 to 5 is added, with the count before it as the answer.\n# Fetch-and-add: Herlihy 1991.\nname = \"fetch_add_mod6\"\nstates = [\"0\", \"1\", \"2\", \"3\", \"4\", \"5\"]\nresponses = [\"0\", \"1\", \"2\", \"3\", \"4\", \"5\"]\n[[operation]]\nname = \"fetch_add1\"\nresponse = [\"0\", \"1\", \"2\", \"3\", \"4\", \"5\"]\nnext = [\"1\", \"2\", \"3\", \"4\", \"5\", \"0\"]\n[[operation]]\nname = \"fetch_add2\"\nresponse = [\"0\", \"1\", \"2\", \"3\", \"4\", \"5\"]\nnext = [\"2\", \"3\", \"4\", \"5\", \"0\", \"1\"]\n[[operation]]\nname = \"fetch_add3\"\nresponse = [\"0\", \"1\", \"2\", \"3\", \"4\", \"5\"]\nnext = [\"3\", \"4\", \"5\", \"0\", \"1\", \"2\"]\n[[operation]]\nname = \"fetch_add4\"\nresponse = [\"0\", \"1\", \"2\", \"3\", \"4\", \"5\"]\nnext = [\"4\", \"5\", \"0\", \"1\", \"2\", \"3\"]\n[[operation]]\nname = \"fetch_add5\"\nresponse = [\"0\", \"1\", \"2\", \"3\", \"4\", \"5\"]\nnext = [\"5\", \"0\", \"1\", \"2\", \"3\", \"4\"]\n"
   },
   {
    "path": "catalogue/fetch_add_mod7",
    "about": {
     "en": "A counter modulo 7 to which any number from 1 to 6 is added, with the count before it as the answer. Additions commute, so a third process does not learn who was first. Two additions of 1 to 0 are answered 0 and 1: the number is 2. Literature: 2, for a counter without bound (Herlihy 1991).",
     "de": "Ein Zähler modulo 7, zu dem jede kleinere Zahl ab 1 addiert wird, mit dem Stand davor als Antwort. Additionen vertauschen, also erfährt ein dritter Prozess nicht, wer der erste war. Zwei Additionen von 1 zu 0 bekommen 0 und 1 zur Antwort: die Zahl ist 2. Literatur: 2, für einen Zähler ohne Grenze (Herlihy 1991)."
    },
    "text": "# A counter modulo 7 to which any number from 1 to 6 is added, with the count before it as the answer.\n# Fetch-and-add: Herlihy 1991.\nname = \"fetch_add_mod7\"\nstates = [\"0\", \"1\", \"2\", \"3\", \"4\", \"5\", \"6\"]\nresponses = [\"0\", \"1\", \"2\", \"3\", \"4\", \"5\", \"6\"]\n[[operation]]\nname = \"fetch_add1\"\nresponse = [\"0\", \"1\", \"2\", \"3\", \"4\", \"5\", \"6\"]\nnext = [\"1\", \"2\", \"3\", \"4\", \"5\", \"6\", \"0\"]\n[[operation]]\nname = \"fetch_add2\"\nresponse = [\"0\", \"1\", \"2\", \"3\", \"4\", \"5\", \"6\"]\nnext = [\"2\", \"3\", \"4\", \"5\", \"6\", \"0\", \"1\"]\n[[operation]]\nname = \"fetch_add3\"\nresponse = [\"0\", \"1\", \"2\", \"3\", \"4\", \"5\", \"6\"]\nnext = [\"3\", \"4\", \"5\", \"6\", \"0\", \"1\", \"2\"]\n[[operation]]\nname = \"fetch_add4\"\nresponse = [\"0\", \"1\", \"2\", \"3\", \"4\", \"5\", \"6\"]\nnext = [\"4\", \"5\", \"6\", \"0\", \"1\", \"2\", \"3\"]\n[[operation]]\nname = \"fetch_add5\"\nresponse = [\"0\", \"1\", \"2\", \"3\", \"4\", \"5\", \"6\"]\nnext = [\"5\", \"6\", \"0\", \"1\", \"2\", \"3\", \"4\"]\n[[operation]]\nname = \"fetch_add6\"\nresponse = [\"0\", \"1\", \"2\", \"3\", \"4\", \"5\", \"6\"]\nnext = [\"6\", \"0\", \"1\", \"2\", \"3\", \"4\", \"5\"]\n"
   },
   {
    "path": "catalogue/fetch_add_mod8",
    "about": {
     "en": "A counter modulo 8 to which any number from 1 to 7 is added, with the count before it as the answer. Additions commute, so a third process does not learn who was first. Two additions of 1 to 0 are answered 0 and 1: the number is 2. Literature: 2, for a counter without bound (Herlihy 1991).",
     "de": "Ein Zähler modulo 8, zu dem jede kleinere Zahl ab 1 addiert wird, mit dem Stand davor als Antwort. Additionen vertauschen, also erfährt ein dritter Prozess nicht, wer der erste war. Zwei Additionen von 1 zu 0 bekommen 0 und 1 zur Antwort: die Zahl ist 2. Literatur: 2, für einen Zähler ohne Grenze (Herlihy 1991)."
    },
    "used": [
     "x86",
     "LOCK XADD",
     "LOCK ADD",
     "SUB",
     "INC",
     "DEC",
     "ARM with LSE",
     "LDADD",
     "RISC-V: A and Zacas",
     "AMOADD",
     "PTX and CUDA",
     "atom.add",
     "atomicAdd",
     "atomicSub",
     "Rust",
     "fetch_add",
     "fetch_sub",
     "C11, C++ and POSIX",
     "atomic_fetch_add",
     "atomic_fetch_sub",
     "Java",
     "getAndAdd",
     "incrementAndGet"
    ],
    "text": "# A counter modulo 8 to which any number from 1 to 7 is added, with the count before it as the answer.\n# Fetch-and-add: Herlihy 1991.\nname = \"fetch_add_mod8\"\nstates = [\"0\", \"1\", \"2\", \"3\", \"4\", \"5\", \"6\", \"7\"]\nresponses = [\"0\", \"1\", \"2\", \"3\", \"4\", \"5\", \"6\", \"7\"]\n[[operation]]\nname = \"fetch_add1\"\nresponse = [\"0\", \"1\", \"2\", \"3\", \"4\", \"5\", \"6\", \"7\"]\nnext = [\"1\", \"2\", \"3\", \"4\", \"5\", \"6\", \"7\", \"0\"]\n[[operation]]\nname = \"fetch_add2\"\nresponse = [\"0\", \"1\", \"2\", \"3\", \"4\", \"5\", \"6\", \"7\"]\nnext = [\"2\", \"3\", \"4\", \"5\", \"6\", \"7\", \"0\", \"1\"]\n[[operation]]\nname = \"fetch_add3\"\nresponse = [\"0\", \"1\", \"2\", \"3\", \"4\", \"5\", \"6\", \"7\"]\nnext = [\"3\", \"4\", \"5\", \"6\", \"7\", \"0\", \"1\", \"2\"]\n[[operation]]\nname = \"fetch_add4\"\nresponse = [\"0\", \"1\", \"2\", \"3\", \"4\", \"5\", \"6\", \"7\"]\nnext = [\"4\", \"5\", \"6\", \"7\", \"0\", \"1\", \"2\", \"3\"]\n[[operation]]\nname = \"fetch_add5\"\nresponse = [\"0\", \"1\", \"2\", \"3\", \"4\", \"5\", \"6\", \"7\"]\nnext = [\"5\", \"6\", \"7\", \"0\", \"1\", \"2\", \"3\", \"4\"]\n[[operation]]\nname = \"fetch_add6\"\nresponse = [\"0\", \"1\", \"2\", \"3\", \"4\", \"5\", \"6\", \"7\"]\nnext = [\"6\", \"7\", \"0\", \"1\", \"2\", \"3\", \"4\", \"5\"]\n[[operation]]\nname = \"fetch_add7\"\nresponse = [\"0\", \"1\", \"2\", \"3\", \"4\", \"5\", \"6\", \"7\"]\nnext = [\"7\", \"0\", \"1\", \"2\", \"3\", \"4\", \"5\", \"6\"]\n"
   },
   {
    "path": "catalogue/fetch_add_mod9",
    "about": {
     "en": "A counter modulo 9 to which any number from 1 to 8 is added, with the count before it as the answer. Additions commute, so a third process does not learn who was first. Two additions of 1 to 0 are answered 0 and 1: the number is 2. Literature: 2, for a counter without bound (Herlihy 1991).",
     "de": "Ein Zähler modulo 9, zu dem jede kleinere Zahl ab 1 addiert wird, mit dem Stand davor als Antwort. Additionen vertauschen, also erfährt ein dritter Prozess nicht, wer der erste war. Zwei Additionen von 1 zu 0 bekommen 0 und 1 zur Antwort: die Zahl ist 2. Literatur: 2, für einen Zähler ohne Grenze (Herlihy 1991)."
    },
    "text": "# A counter modulo 9 to which any number from 1 to 8 is added, with the count before it as the answer.\n# Fetch-and-add: Herlihy 1991.\nname = \"fetch_add_mod9\"\nstates = [\"0\", \"1\", \"2\", \"3\", \"4\", \"5\", \"6\", \"7\", \"8\"]\nresponses = [\"0\", \"1\", \"2\", \"3\", \"4\", \"5\", \"6\", \"7\", \"8\"]\n[[operation]]\nname = \"fetch_add1\"\nresponse = [\"0\", \"1\", \"2\", \"3\", \"4\", \"5\", \"6\", \"7\", \"8\"]\nnext = [\"1\", \"2\", \"3\", \"4\", \"5\", \"6\", \"7\", \"8\", \"0\"]\n[[operation]]\nname = \"fetch_add2\"\nresponse = [\"0\", \"1\", \"2\", \"3\", \"4\", \"5\", \"6\", \"7\", \"8\"]\nnext = [\"2\", \"3\", \"4\", \"5\", \"6\", \"7\", \"8\", \"0\", \"1\"]\n[[operation]]\nname = \"fetch_add3\"\nresponse = [\"0\", \"1\", \"2\", \"3\", \"4\", \"5\", \"6\", \"7\", \"8\"]\nnext = [\"3\", \"4\", \"5\", \"6\", \"7\", \"8\", \"0\", \"1\", \"2\"]\n[[operation]]\nname = \"fetch_add4\"\nresponse = [\"0\", \"1\", \"2\", \"3\", \"4\", \"5\", \"6\", \"7\", \"8\"]\nnext = [\"4\", \"5\", \"6\", \"7\", \"8\", \"0\", \"1\", \"2\", \"3\"]\n[[operation]]\nname = \"fetch_add5\"\nresponse = [\"0\", \"1\", \"2\", \"3\", \"4\", \"5\", \"6\", \"7\", \"8\"]\nnext = [\"5\", \"6\", \"7\", \"8\", \"0\", \"1\", \"2\", \"3\", \"4\"]\n[[operation]]\nname = \"fetch_add6\"\nresponse = [\"0\", \"1\", \"2\", \"3\", \"4\", \"5\", \"6\", \"7\", \"8\"]\nnext = [\"6\", \"7\", \"8\", \"0\", \"1\", \"2\", \"3\", \"4\", \"5\"]\n[[operation]]\nname = \"fetch_add7\"\nresponse = [\"0\", \"1\", \"2\", \"3\", \"4\", \"5\", \"6\", \"7\", \"8\"]\nnext = [\"7\", \"8\", \"0\", \"1\", \"2\", \"3\", \"4\", \"5\", \"6\"]\n[[operation]]\nname = \"fetch_add8\"\nresponse = [\"0\", \"1\", \"2\", \"3\", \"4\", \"5\", \"6\", \"7\", \"8\"]\nnext = [\"8\", \"0\", \"1\", \"2\", \"3\", \"4\", \"5\", \"6\", \"7\"]\n"
   }
  ]
 },
 {
  "name": {
   "en": "Sticky registers",
   "de": "Register, die den ersten Wert behalten"
  },
  "types": [
   {
    "path": "catalogue/sticky_1",
    "about": {
     "en": "A register of 1 value that keeps the first one put and answers with it. All answers are the same, so nobody learns who was first: the number is 1.",
     "de": "Ein Register mit einem Wert, das den ersten Wert behält und mit ihm antwortet. Alle Antworten sind gleich, also erfährt niemand, wer der erste war: die Zahl ist 1."
    },
    "text": "# A register of 1 value that keeps the first one put and answers with it.\n# Sticky bit: Plotkin 1989.\nname = \"sticky_1\"\nstates = [\"unset\", \"0\"]\nresponses = [\"0\"]\n[[operation]]\nname = \"put0\"\nresponse = [\"0\", \"0\"]\nnext = [\"0\", \"0\"]\n"
   },
   {
    "path": "catalogue/sticky_2",
    "about": {
     "en": "A register of 2 values that keeps the first one put and answers with it. The first value put answers every call, so any number of processes agree. Literature: infinite for a sticky bit (Plotkin 1989).",
     "de": "Ein Register von 2 Werten, das den ersten Wert behält und mit ihm antwortet. Der erste Wert beantwortet jeden Aufruf, also einigen sich beliebig viele Prozesse. Literatur: unendlich für das klebende Bit (Plotkin 1989)."
    },
    "used": [
     "Rust",
     "OnceLock::get_or_init"
    ],
    "text": "# A register of 2 values that keeps the first one put and answers with it.\n# Sticky bit: Plotkin 1989.\nname = \"sticky_2\"\nstates = [\"unset\", \"0\", \"1\"]\nresponses = [\"0\", \"1\"]\n[[operation]]\nname = \"put0\"\nresponse = [\"0\", \"0\", \"1\"]\nnext = [\"0\", \"0\", \"1\"]\n[[operation]]\nname = \"put1\"\nresponse = [\"1\", \"0\", \"1\"]\nnext = [\"1\", \"0\", \"1\"]\n"
   },
   {
    "path": "catalogue/sticky_3",
    "about": {
     "en": "A register of 3 values that keeps the first one put and answers with it. The first value put answers every call, so any number of processes agree. Literature: infinite for a sticky bit (Plotkin 1989).",
     "de": "Ein Register von 3 Werten, das den ersten Wert behält und mit ihm antwortet. Der erste Wert beantwortet jeden Aufruf, also einigen sich beliebig viele Prozesse. Literatur: unendlich für das klebende Bit (Plotkin 1989)."
    },
    "text": "# A register of 3 values that keeps the first one put and answers with it.\n# Sticky bit: Plotkin 1989.\nname = \"sticky_3\"\nstates = [\"unset\", \"0\", \"1\", \"2\"]\nresponses = [\"0\", \"1\", \"2\"]\n[[operation]]\nname = \"put0\"\nresponse = [\"0\", \"0\", \"1\", \"2\"]\nnext = [\"0\", \"0\", \"1\", \"2\"]\n[[operation]]\nname = \"put1\"\nresponse = [\"1\", \"0\", \"1\", \"2\"]\nnext = [\"1\", \"0\", \"1\", \"2\"]\n[[operation]]\nname = \"put2\"\nresponse = [\"2\", \"0\", \"1\", \"2\"]\nnext = [\"2\", \"0\", \"1\", \"2\"]\n"
   },
   {
    "path": "catalogue/sticky_4",
    "about": {
     "en": "A register of 4 values that keeps the first one put and answers with it. The first value put answers every call, so any number of processes agree. Literature: infinite for a sticky bit (Plotkin 1989).",
     "de": "Ein Register von 4 Werten, das den ersten Wert behält und mit ihm antwortet. Der erste Wert beantwortet jeden Aufruf, also einigen sich beliebig viele Prozesse. Literatur: unendlich für das klebende Bit (Plotkin 1989)."
    },
    "text": "# A register of 4 values that keeps the first one put and answers with it.\n# Sticky bit: Plotkin 1989.\nname = \"sticky_4\"\nstates = [\"unset\", \"0\", \"1\", \"2\", \"3\"]\nresponses = [\"0\", \"1\", \"2\", \"3\"]\n[[operation]]\nname = \"put0\"\nresponse = [\"0\", \"0\", \"1\", \"2\", \"3\"]\nnext = [\"0\", \"0\", \"1\", \"2\", \"3\"]\n[[operation]]\nname = \"put1\"\nresponse = [\"1\", \"0\", \"1\", \"2\", \"3\"]\nnext = [\"1\", \"0\", \"1\", \"2\", \"3\"]\n[[operation]]\nname = \"put2\"\nresponse = [\"2\", \"0\", \"1\", \"2\", \"3\"]\nnext = [\"2\", \"0\", \"1\", \"2\", \"3\"]\n[[operation]]\nname = \"put3\"\nresponse = [\"3\", \"0\", \"1\", \"2\", \"3\"]\nnext = [\"3\", \"0\", \"1\", \"2\", \"3\"]\n"
   },
   {
    "path": "catalogue/sticky_5",
    "about": {
     "en": "A register of 5 values that keeps the first one put and answers with it. The first value put answers every call, so any number of processes agree. Literature: infinite for a sticky bit (Plotkin 1989).",
     "de": "Ein Register von 5 Werten, das den ersten Wert behält und mit ihm antwortet. Der erste Wert beantwortet jeden Aufruf, also einigen sich beliebig viele Prozesse. Literatur: unendlich für das klebende Bit (Plotkin 1989)."
    },
    "text": "# A register of 5 values that keeps the first one put and answers with it.\n# Sticky bit: Plotkin 1989.\nname = \"sticky_5\"\nstates = [\"unset\", \"0\", \"1\", \"2\", \"3\", \"4\"]\nresponses = [\"0\", \"1\", \"2\", \"3\", \"4\"]\n[[operation]]\nname = \"put0\"\nresponse = [\"0\", \"0\", \"1\", \"2\", \"3\", \"4\"]\nnext = [\"0\", \"0\", \"1\", \"2\", \"3\", \"4\"]\n[[operation]]\nname = \"put1\"\nresponse = [\"1\", \"0\", \"1\", \"2\", \"3\", \"4\"]\nnext = [\"1\", \"0\", \"1\", \"2\", \"3\", \"4\"]\n[[operation]]\nname = \"put2\"\nresponse = [\"2\", \"0\", \"1\", \"2\", \"3\", \"4\"]\nnext = [\"2\", \"0\", \"1\", \"2\", \"3\", \"4\"]\n[[operation]]\nname = \"put3\"\nresponse = [\"3\", \"0\", \"1\", \"2\", \"3\", \"4\"]\nnext = [\"3\", \"0\", \"1\", \"2\", \"3\", \"4\"]\n[[operation]]\nname = \"put4\"\nresponse = [\"4\", \"0\", \"1\", \"2\", \"3\", \"4\"]\nnext = [\"4\", \"0\", \"1\", \"2\", \"3\", \"4\"]\n"
   },
   {
    "path": "catalogue/sticky_6",
    "about": {
     "en": "A register of 6 values that keeps the first one put and answers with it. The first value put answers every call, so any number of processes agree. Literature: infinite for a sticky bit (Plotkin 1989).",
     "de": "Ein Register von 6 Werten, das den ersten Wert behält und mit ihm antwortet. Der erste Wert beantwortet jeden Aufruf, also einigen sich beliebig viele Prozesse. Literatur: unendlich für das klebende Bit (Plotkin 1989)."
    },
    "text": "# A register of 6 values that keeps the first one put and answers with it.\n# Sticky bit: Plotkin 1989.\nname = \"sticky_6\"\nstates = [\"unset\", \"0\", \"1\", \"2\", \"3\", \"4\", \"5\"]\nresponses = [\"0\", \"1\", \"2\", \"3\", \"4\", \"5\"]\n[[operation]]\nname = \"put0\"\nresponse = [\"0\", \"0\", \"1\", \"2\", \"3\", \"4\", \"5\"]\nnext = [\"0\", \"0\", \"1\", \"2\", \"3\", \"4\", \"5\"]\n[[operation]]\nname = \"put1\"\nresponse = [\"1\", \"0\", \"1\", \"2\", \"3\", \"4\", \"5\"]\nnext = [\"1\", \"0\", \"1\", \"2\", \"3\", \"4\", \"5\"]\n[[operation]]\nname = \"put2\"\nresponse = [\"2\", \"0\", \"1\", \"2\", \"3\", \"4\", \"5\"]\nnext = [\"2\", \"0\", \"1\", \"2\", \"3\", \"4\", \"5\"]\n[[operation]]\nname = \"put3\"\nresponse = [\"3\", \"0\", \"1\", \"2\", \"3\", \"4\", \"5\"]\nnext = [\"3\", \"0\", \"1\", \"2\", \"3\", \"4\", \"5\"]\n[[operation]]\nname = \"put4\"\nresponse = [\"4\", \"0\", \"1\", \"2\", \"3\", \"4\", \"5\"]\nnext = [\"4\", \"0\", \"1\", \"2\", \"3\", \"4\", \"5\"]\n[[operation]]\nname = \"put5\"\nresponse = [\"5\", \"0\", \"1\", \"2\", \"3\", \"4\", \"5\"]\nnext = [\"5\", \"0\", \"1\", \"2\", \"3\", \"4\", \"5\"]\n"
   },
   {
    "path": "catalogue/sticky_7",
    "about": {
     "en": "A register of 7 values that keeps the first one put and answers with it. The first value put answers every call, so any number of processes agree. Literature: infinite for a sticky bit (Plotkin 1989).",
     "de": "Ein Register von 7 Werten, das den ersten Wert behält und mit ihm antwortet. Der erste Wert beantwortet jeden Aufruf, also einigen sich beliebig viele Prozesse. Literatur: unendlich für das klebende Bit (Plotkin 1989)."
    },
    "text": "# A register of 7 values that keeps the first one put and answers with it.\n# Sticky bit: Plotkin 1989.\nname = \"sticky_7\"\nstates = [\"unset\", \"0\", \"1\", \"2\", \"3\", \"4\", \"5\", \"6\"]\nresponses = [\"0\", \"1\", \"2\", \"3\", \"4\", \"5\", \"6\"]\n[[operation]]\nname = \"put0\"\nresponse = [\"0\", \"0\", \"1\", \"2\", \"3\", \"4\", \"5\", \"6\"]\nnext = [\"0\", \"0\", \"1\", \"2\", \"3\", \"4\", \"5\", \"6\"]\n[[operation]]\nname = \"put1\"\nresponse = [\"1\", \"0\", \"1\", \"2\", \"3\", \"4\", \"5\", \"6\"]\nnext = [\"1\", \"0\", \"1\", \"2\", \"3\", \"4\", \"5\", \"6\"]\n[[operation]]\nname = \"put2\"\nresponse = [\"2\", \"0\", \"1\", \"2\", \"3\", \"4\", \"5\", \"6\"]\nnext = [\"2\", \"0\", \"1\", \"2\", \"3\", \"4\", \"5\", \"6\"]\n[[operation]]\nname = \"put3\"\nresponse = [\"3\", \"0\", \"1\", \"2\", \"3\", \"4\", \"5\", \"6\"]\nnext = [\"3\", \"0\", \"1\", \"2\", \"3\", \"4\", \"5\", \"6\"]\n[[operation]]\nname = \"put4\"\nresponse = [\"4\", \"0\", \"1\", \"2\", \"3\", \"4\", \"5\", \"6\"]\nnext = [\"4\", \"0\", \"1\", \"2\", \"3\", \"4\", \"5\", \"6\"]\n[[operation]]\nname = \"put5\"\nresponse = [\"5\", \"0\", \"1\", \"2\", \"3\", \"4\", \"5\", \"6\"]\nnext = [\"5\", \"0\", \"1\", \"2\", \"3\", \"4\", \"5\", \"6\"]\n[[operation]]\nname = \"put6\"\nresponse = [\"6\", \"0\", \"1\", \"2\", \"3\", \"4\", \"5\", \"6\"]\nnext = [\"6\", \"0\", \"1\", \"2\", \"3\", \"4\", \"5\", \"6\"]\n"
   },
   {
    "path": "catalogue/sticky_8",
    "about": {
     "en": "A register of 8 values that keeps the first one put and answers with it. The first value put answers every call, so any number of processes agree. Literature: infinite for a sticky bit (Plotkin 1989).",
     "de": "Ein Register von 8 Werten, das den ersten Wert behält und mit ihm antwortet. Der erste Wert beantwortet jeden Aufruf, also einigen sich beliebig viele Prozesse. Literatur: unendlich für das klebende Bit (Plotkin 1989)."
    },
    "text": "# A register of 8 values that keeps the first one put and answers with it.\n# Sticky bit: Plotkin 1989.\nname = \"sticky_8\"\nstates = [\"unset\", \"0\", \"1\", \"2\", \"3\", \"4\", \"5\", \"6\", \"7\"]\nresponses = [\"0\", \"1\", \"2\", \"3\", \"4\", \"5\", \"6\", \"7\"]\n[[operation]]\nname = \"put0\"\nresponse = [\"0\", \"0\", \"1\", \"2\", \"3\", \"4\", \"5\", \"6\", \"7\"]\nnext = [\"0\", \"0\", \"1\", \"2\", \"3\", \"4\", \"5\", \"6\", \"7\"]\n[[operation]]\nname = \"put1\"\nresponse = [\"1\", \"0\", \"1\", \"2\", \"3\", \"4\", \"5\", \"6\", \"7\"]\nnext = [\"1\", \"0\", \"1\", \"2\", \"3\", \"4\", \"5\", \"6\", \"7\"]\n[[operation]]\nname = \"put2\"\nresponse = [\"2\", \"0\", \"1\", \"2\", \"3\", \"4\", \"5\", \"6\", \"7\"]\nnext = [\"2\", \"0\", \"1\", \"2\", \"3\", \"4\", \"5\", \"6\", \"7\"]\n[[operation]]\nname = \"put3\"\nresponse = [\"3\", \"0\", \"1\", \"2\", \"3\", \"4\", \"5\", \"6\", \"7\"]\nnext = [\"3\", \"0\", \"1\", \"2\", \"3\", \"4\", \"5\", \"6\", \"7\"]\n[[operation]]\nname = \"put4\"\nresponse = [\"4\", \"0\", \"1\", \"2\", \"3\", \"4\", \"5\", \"6\", \"7\"]\nnext = [\"4\", \"0\", \"1\", \"2\", \"3\", \"4\", \"5\", \"6\", \"7\"]\n[[operation]]\nname = \"put5\"\nresponse = [\"5\", \"0\", \"1\", \"2\", \"3\", \"4\", \"5\", \"6\", \"7\"]\nnext = [\"5\", \"0\", \"1\", \"2\", \"3\", \"4\", \"5\", \"6\", \"7\"]\n[[operation]]\nname = \"put6\"\nresponse = [\"6\", \"0\", \"1\", \"2\", \"3\", \"4\", \"5\", \"6\", \"7\"]\nnext = [\"6\", \"0\", \"1\", \"2\", \"3\", \"4\", \"5\", \"6\", \"7\"]\n[[operation]]\nname = \"put7\"\nresponse = [\"7\", \"0\", \"1\", \"2\", \"3\", \"4\", \"5\", \"6\", \"7\"]\nnext = [\"7\", \"0\", \"1\", \"2\", \"3\", \"4\", \"5\", \"6\", \"7\"]\n"
   }
  ]
 },
 {
  "name": {
   "en": "Compare-and-swap",
   "de": "Compare-and-swap"
  },
  "types": [
   {
    "path": "catalogue/cas_2",
    "about": {
     "en": "Compare-and-swap on 2 values that answers with the value before. On two values any two operations commute, or one wipes out the other: the number is 2. From three values on it is infinite. Literature: two values are not enough (Loui and Abu-Amara 1987; Herlihy 1991 has enough).",
     "de": "Compare-and-swap auf 2 Werten, das mit dem Wert davor antwortet. Mit zwei Werten vertauschen je zwei Operationen, oder eine löscht die andere aus: die Zahl ist 2. Ab drei Werten ist sie unendlich. Literatur: zwei Werte genügen nicht (Loui and Abu-Amara 1987; bei Herlihy 1991 sind es genug)."
    },
    "text": "# Compare-and-swap on 2 values that answers with the value before.\n# Herlihy 1991; on two values and on three: Loui and Abu-Amara 1987.\nname = \"cas_2\"\nstates = [\"0\", \"1\"]\nresponses = [\"0\", \"1\"]\n[[operation]]\nname = \"cas01\"\nresponse = [\"0\", \"1\"]\nnext = [\"1\", \"1\"]\n[[operation]]\nname = \"cas10\"\nresponse = [\"0\", \"1\"]\nnext = [\"0\", \"0\"]\n"
   },
   {
    "path": "catalogue/cas_3",
    "about": {
     "en": "Compare-and-swap on 3 values that answers with the value before. From 0, cas01 against cas02: the first call decides the value, which then stays and answers every call, so any number of processes agree. Literature: infinite (Herlihy 1991); three values are enough (Loui and Abu-Amara 1987).",
     "de": "Compare-and-swap auf 3 Werten, das mit dem Wert davor antwortet. Ab 0 tut einer cas01, die anderen cas02: der erste Aufruf bestimmt den Wert, der dann bleibt und den jeder erfährt, also einigen sich beliebig viele Prozesse. Literatur: unendlich (Herlihy 1991); drei Werte genügen (Loui and Abu-Amara 1987)."
    },
    "text": "# Compare-and-swap on 3 values that answers with the value before.\n# Herlihy 1991; on two values and on three: Loui and Abu-Amara 1987.\nname = \"cas_3\"\nstates = [\"0\", \"1\", \"2\"]\nresponses = [\"0\", \"1\", \"2\"]\n[[operation]]\nname = \"cas01\"\nresponse = [\"0\", \"1\", \"2\"]\nnext = [\"1\", \"1\", \"2\"]\n[[operation]]\nname = \"cas02\"\nresponse = [\"0\", \"1\", \"2\"]\nnext = [\"2\", \"1\", \"2\"]\n[[operation]]\nname = \"cas10\"\nresponse = [\"0\", \"1\", \"2\"]\nnext = [\"0\", \"0\", \"2\"]\n[[operation]]\nname = \"cas12\"\nresponse = [\"0\", \"1\", \"2\"]\nnext = [\"0\", \"2\", \"2\"]\n[[operation]]\nname = \"cas20\"\nresponse = [\"0\", \"1\", \"2\"]\nnext = [\"0\", \"1\", \"0\"]\n[[operation]]\nname = \"cas21\"\nresponse = [\"0\", \"1\", \"2\"]\nnext = [\"0\", \"1\", \"1\"]\n"
   },
   {
    "path": "catalogue/cas_4",
    "about": {
     "en": "Compare-and-swap on 4 values that answers with the value before, with 8 of its 12 operations. From 0, cas01 against cas02: the first call decides the value, which then stays and answers every call, so any number of processes agree. Literature: infinite (Herlihy 1991); three values are enough (Loui and Abu-Amara 1987).",
     "de": "Compare-and-swap auf 4 Werten, das mit dem Wert davor antwortet. Ab 0 tut einer cas01, die anderen cas02: der erste Aufruf bestimmt den Wert, der dann bleibt und den jeder erfährt, also einigen sich beliebig viele Prozesse. Literatur: unendlich (Herlihy 1991); drei Werte genügen (Loui and Abu-Amara 1987)."
    },
    "used": [
     "x86",
     "LOCK CMPXCHG",
     "ARM with LSE",
     "CAS",
     "RISC-V: A and Zacas",
     "AMOCAS.W",
     "AMOCAS.D",
     "PTX and CUDA",
     "atom.cas",
     "atomicCAS",
     "Rust",
     "compare_exchange",
     "compare_exchange_weak",
     "C11, C++ and POSIX",
     "atomic_compare_exchange_strong",
     "_weak",
     "Java",
     "compareAndExchange"
    ],
    "text": "# Compare-and-swap on 4 values that answers with the value before, with 8 of its 12 operations.\n# Herlihy 1991; on two values and on three: Loui and Abu-Amara 1987.\nname = \"cas_4\"\nstates = [\"0\", \"1\", \"2\", \"3\"]\nresponses = [\"0\", \"1\", \"2\", \"3\"]\n[[operation]]\nname = \"cas01\"\nresponse = [\"0\", \"1\", \"2\", \"3\"]\nnext = [\"1\", \"1\", \"2\", \"3\"]\n[[operation]]\nname = \"cas02\"\nresponse = [\"0\", \"1\", \"2\", \"3\"]\nnext = [\"2\", \"1\", \"2\", \"3\"]\n[[operation]]\nname = \"cas03\"\nresponse = [\"0\", \"1\", \"2\", \"3\"]\nnext = [\"3\", \"1\", \"2\", \"3\"]\n[[operation]]\nname = \"cas10\"\nresponse = [\"0\", \"1\", \"2\", \"3\"]\nnext = [\"0\", \"0\", \"2\", \"3\"]\n[[operation]]\nname = \"cas20\"\nresponse = [\"0\", \"1\", \"2\", \"3\"]\nnext = [\"0\", \"1\", \"0\", \"3\"]\n[[operation]]\nname = \"cas30\"\nresponse = [\"0\", \"1\", \"2\", \"3\"]\nnext = [\"0\", \"1\", \"2\", \"0\"]\n[[operation]]\nname = \"cas12\"\nresponse = [\"0\", \"1\", \"2\", \"3\"]\nnext = [\"0\", \"2\", \"2\", \"3\"]\n[[operation]]\nname = \"cas23\"\nresponse = [\"0\", \"1\", \"2\", \"3\"]\nnext = [\"0\", \"1\", \"3\", \"3\"]\n"
   },
   {
    "path": "catalogue/cas_5",
    "about": {
     "en": "Compare-and-swap on 5 values that answers with the value before, with 8 of its 20 operations. From 0, cas01 against cas02: the first call decides the value, which then stays and answers every call, so any number of processes agree. Literature: infinite (Herlihy 1991); three values are enough (Loui and Abu-Amara 1987).",
     "de": "Compare-and-swap auf 5 Werten, das mit dem Wert davor antwortet. Ab 0 tut einer cas01, die anderen cas02: der erste Aufruf bestimmt den Wert, der dann bleibt und den jeder erfährt, also einigen sich beliebig viele Prozesse. Literatur: unendlich (Herlihy 1991); drei Werte genügen (Loui and Abu-Amara 1987)."
    },
    "text": "# Compare-and-swap on 5 values that answers with the value before, with 8 of its 20 operations.\n# Herlihy 1991; on two values and on three: Loui and Abu-Amara 1987.\nname = \"cas_5\"\nstates = [\"0\", \"1\", \"2\", \"3\", \"4\"]\nresponses = [\"0\", \"1\", \"2\", \"3\", \"4\"]\n[[operation]]\nname = \"cas01\"\nresponse = [\"0\", \"1\", \"2\", \"3\", \"4\"]\nnext = [\"1\", \"1\", \"2\", \"3\", \"4\"]\n[[operation]]\nname = \"cas02\"\nresponse = [\"0\", \"1\", \"2\", \"3\", \"4\"]\nnext = [\"2\", \"1\", \"2\", \"3\", \"4\"]\n[[operation]]\nname = \"cas03\"\nresponse = [\"0\", \"1\", \"2\", \"3\", \"4\"]\nnext = [\"3\", \"1\", \"2\", \"3\", \"4\"]\n[[operation]]\nname = \"cas04\"\nresponse = [\"0\", \"1\", \"2\", \"3\", \"4\"]\nnext = [\"4\", \"1\", \"2\", \"3\", \"4\"]\n[[operation]]\nname = \"cas10\"\nresponse = [\"0\", \"1\", \"2\", \"3\", \"4\"]\nnext = [\"0\", \"0\", \"2\", \"3\", \"4\"]\n[[operation]]\nname = \"cas20\"\nresponse = [\"0\", \"1\", \"2\", \"3\", \"4\"]\nnext = [\"0\", \"1\", \"0\", \"3\", \"4\"]\n[[operation]]\nname = \"cas30\"\nresponse = [\"0\", \"1\", \"2\", \"3\", \"4\"]\nnext = [\"0\", \"1\", \"2\", \"0\", \"4\"]\n[[operation]]\nname = \"cas40\"\nresponse = [\"0\", \"1\", \"2\", \"3\", \"4\"]\nnext = [\"0\", \"1\", \"2\", \"3\", \"0\"]\n"
   },
   {
    "path": "catalogue/cas_6",
    "about": {
     "en": "Compare-and-swap on 6 values that answers with the value before, with 8 of its 30 operations. From 0, cas01 against cas02: the first call decides the value, which then stays and answers every call, so any number of processes agree. Literature: infinite (Herlihy 1991); three values are enough (Loui and Abu-Amara 1987).",
     "de": "Compare-and-swap auf 6 Werten, das mit dem Wert davor antwortet. Ab 0 tut einer cas01, die anderen cas02: der erste Aufruf bestimmt den Wert, der dann bleibt und den jeder erfährt, also einigen sich beliebig viele Prozesse. Literatur: unendlich (Herlihy 1991); drei Werte genügen (Loui and Abu-Amara 1987)."
    },
    "text": "# Compare-and-swap on 6 values that answers with the value before, with 8 of its 30 operations.\n# Herlihy 1991; on two values and on three: Loui and Abu-Amara 1987.\nname = \"cas_6\"\nstates = [\"0\", \"1\", \"2\", \"3\", \"4\", \"5\"]\nresponses = [\"0\", \"1\", \"2\", \"3\", \"4\", \"5\"]\n[[operation]]\nname = \"cas01\"\nresponse = [\"0\", \"1\", \"2\", \"3\", \"4\", \"5\"]\nnext = [\"1\", \"1\", \"2\", \"3\", \"4\", \"5\"]\n[[operation]]\nname = \"cas02\"\nresponse = [\"0\", \"1\", \"2\", \"3\", \"4\", \"5\"]\nnext = [\"2\", \"1\", \"2\", \"3\", \"4\", \"5\"]\n[[operation]]\nname = \"cas03\"\nresponse = [\"0\", \"1\", \"2\", \"3\", \"4\", \"5\"]\nnext = [\"3\", \"1\", \"2\", \"3\", \"4\", \"5\"]\n[[operation]]\nname = \"cas04\"\nresponse = [\"0\", \"1\", \"2\", \"3\", \"4\", \"5\"]\nnext = [\"4\", \"1\", \"2\", \"3\", \"4\", \"5\"]\n[[operation]]\nname = \"cas05\"\nresponse = [\"0\", \"1\", \"2\", \"3\", \"4\", \"5\"]\nnext = [\"5\", \"1\", \"2\", \"3\", \"4\", \"5\"]\n[[operation]]\nname = \"cas10\"\nresponse = [\"0\", \"1\", \"2\", \"3\", \"4\", \"5\"]\nnext = [\"0\", \"0\", \"2\", \"3\", \"4\", \"5\"]\n[[operation]]\nname = \"cas20\"\nresponse = [\"0\", \"1\", \"2\", \"3\", \"4\", \"5\"]\nnext = [\"0\", \"1\", \"0\", \"3\", \"4\", \"5\"]\n[[operation]]\nname = \"cas30\"\nresponse = [\"0\", \"1\", \"2\", \"3\", \"4\", \"5\"]\nnext = [\"0\", \"1\", \"2\", \"0\", \"4\", \"5\"]\n"
   },
   {
    "path": "catalogue/cas_7",
    "about": {
     "en": "Compare-and-swap on 7 values that answers with the value before, with 8 of its 42 operations. From 0, cas01 against cas02: the first call decides the value, which then stays and answers every call, so any number of processes agree. Literature: infinite (Herlihy 1991); three values are enough (Loui and Abu-Amara 1987).",
     "de": "Compare-and-swap auf 7 Werten, das mit dem Wert davor antwortet. Ab 0 tut einer cas01, die anderen cas02: der erste Aufruf bestimmt den Wert, der dann bleibt und den jeder erfährt, also einigen sich beliebig viele Prozesse. Literatur: unendlich (Herlihy 1991); drei Werte genügen (Loui and Abu-Amara 1987)."
    },
    "text": "# Compare-and-swap on 7 values that answers with the value before, with 8 of its 42 operations.\n# Herlihy 1991; on two values and on three: Loui and Abu-Amara 1987.\nname = \"cas_7\"\nstates = [\"0\", \"1\", \"2\", \"3\", \"4\", \"5\", \"6\"]\nresponses = [\"0\", \"1\", \"2\", \"3\", \"4\", \"5\", \"6\"]\n[[operation]]\nname = \"cas01\"\nresponse = [\"0\", \"1\", \"2\", \"3\", \"4\", \"5\", \"6\"]\nnext = [\"1\", \"1\", \"2\", \"3\", \"4\", \"5\", \"6\"]\n[[operation]]\nname = \"cas02\"\nresponse = [\"0\", \"1\", \"2\", \"3\", \"4\", \"5\", \"6\"]\nnext = [\"2\", \"1\", \"2\", \"3\", \"4\", \"5\", \"6\"]\n[[operation]]\nname = \"cas03\"\nresponse = [\"0\", \"1\", \"2\", \"3\", \"4\", \"5\", \"6\"]\nnext = [\"3\", \"1\", \"2\", \"3\", \"4\", \"5\", \"6\"]\n[[operation]]\nname = \"cas04\"\nresponse = [\"0\", \"1\", \"2\", \"3\", \"4\", \"5\", \"6\"]\nnext = [\"4\", \"1\", \"2\", \"3\", \"4\", \"5\", \"6\"]\n[[operation]]\nname = \"cas05\"\nresponse = [\"0\", \"1\", \"2\", \"3\", \"4\", \"5\", \"6\"]\nnext = [\"5\", \"1\", \"2\", \"3\", \"4\", \"5\", \"6\"]\n[[operation]]\nname = \"cas06\"\nresponse = [\"0\", \"1\", \"2\", \"3\", \"4\", \"5\", \"6\"]\nnext = [\"6\", \"1\", \"2\", \"3\", \"4\", \"5\", \"6\"]\n[[operation]]\nname = \"cas10\"\nresponse = [\"0\", \"1\", \"2\", \"3\", \"4\", \"5\", \"6\"]\nnext = [\"0\", \"0\", \"2\", \"3\", \"4\", \"5\", \"6\"]\n[[operation]]\nname = \"cas20\"\nresponse = [\"0\", \"1\", \"2\", \"3\", \"4\", \"5\", \"6\"]\nnext = [\"0\", \"1\", \"0\", \"3\", \"4\", \"5\", \"6\"]\n"
   },
   {
    "path": "catalogue/cas_8",
    "about": {
     "en": "Compare-and-swap on 8 values that answers with the value before, with 8 of its 56 operations. From 0, cas01 against cas02: the first call decides the value, which then stays and answers every call, so any number of processes agree. Literature: infinite (Herlihy 1991); three values are enough (Loui and Abu-Amara 1987).",
     "de": "Compare-and-swap auf 8 Werten, das mit dem Wert davor antwortet. Ab 0 tut einer cas01, die anderen cas02: der erste Aufruf bestimmt den Wert, der dann bleibt und den jeder erfährt, also einigen sich beliebig viele Prozesse. Literatur: unendlich (Herlihy 1991); drei Werte genügen (Loui and Abu-Amara 1987)."
    },
    "text": "# Compare-and-swap on 8 values that answers with the value before, with 8 of its 56 operations.\n# Herlihy 1991; on two values and on three: Loui and Abu-Amara 1987.\nname = \"cas_8\"\nstates = [\"0\", \"1\", \"2\", \"3\", \"4\", \"5\", \"6\", \"7\"]\nresponses = [\"0\", \"1\", \"2\", \"3\", \"4\", \"5\", \"6\", \"7\"]\n[[operation]]\nname = \"cas01\"\nresponse = [\"0\", \"1\", \"2\", \"3\", \"4\", \"5\", \"6\", \"7\"]\nnext = [\"1\", \"1\", \"2\", \"3\", \"4\", \"5\", \"6\", \"7\"]\n[[operation]]\nname = \"cas02\"\nresponse = [\"0\", \"1\", \"2\", \"3\", \"4\", \"5\", \"6\", \"7\"]\nnext = [\"2\", \"1\", \"2\", \"3\", \"4\", \"5\", \"6\", \"7\"]\n[[operation]]\nname = \"cas03\"\nresponse = [\"0\", \"1\", \"2\", \"3\", \"4\", \"5\", \"6\", \"7\"]\nnext = [\"3\", \"1\", \"2\", \"3\", \"4\", \"5\", \"6\", \"7\"]\n[[operation]]\nname = \"cas04\"\nresponse = [\"0\", \"1\", \"2\", \"3\", \"4\", \"5\", \"6\", \"7\"]\nnext = [\"4\", \"1\", \"2\", \"3\", \"4\", \"5\", \"6\", \"7\"]\n[[operation]]\nname = \"cas05\"\nresponse = [\"0\", \"1\", \"2\", \"3\", \"4\", \"5\", \"6\", \"7\"]\nnext = [\"5\", \"1\", \"2\", \"3\", \"4\", \"5\", \"6\", \"7\"]\n[[operation]]\nname = \"cas06\"\nresponse = [\"0\", \"1\", \"2\", \"3\", \"4\", \"5\", \"6\", \"7\"]\nnext = [\"6\", \"1\", \"2\", \"3\", \"4\", \"5\", \"6\", \"7\"]\n[[operation]]\nname = \"cas07\"\nresponse = [\"0\", \"1\", \"2\", \"3\", \"4\", \"5\", \"6\", \"7\"]\nnext = [\"7\", \"1\", \"2\", \"3\", \"4\", \"5\", \"6\", \"7\"]\n[[operation]]\nname = \"cas10\"\nresponse = [\"0\", \"1\", \"2\", \"3\", \"4\", \"5\", \"6\", \"7\"]\nnext = [\"0\", \"0\", \"2\", \"3\", \"4\", \"5\", \"6\", \"7\"]\n"
   },
   {
    "path": "catalogue/cas_9",
    "about": {
     "en": "Compare-and-swap on 9 values that answers with the value before, with 8 of its 72 operations. From 0, cas01 against cas02: the first call decides the value, which then stays and answers every call, so any number of processes agree. Literature: infinite (Herlihy 1991); three values are enough (Loui and Abu-Amara 1987).",
     "de": "Compare-and-swap auf 9 Werten, das mit dem Wert davor antwortet. Ab 0 tut einer cas01, die anderen cas02: der erste Aufruf bestimmt den Wert, der dann bleibt und den jeder erfährt, also einigen sich beliebig viele Prozesse. Literatur: unendlich (Herlihy 1991); drei Werte genügen (Loui and Abu-Amara 1987)."
    },
    "text": "# Compare-and-swap on 9 values that answers with the value before, with 8 of its 72 operations.\n# Herlihy 1991; on two values and on three: Loui and Abu-Amara 1987.\nname = \"cas_9\"\nstates = [\"0\", \"1\", \"2\", \"3\", \"4\", \"5\", \"6\", \"7\", \"8\"]\nresponses = [\"0\", \"1\", \"2\", \"3\", \"4\", \"5\", \"6\", \"7\", \"8\"]\n[[operation]]\nname = \"cas01\"\nresponse = [\"0\", \"1\", \"2\", \"3\", \"4\", \"5\", \"6\", \"7\", \"8\"]\nnext = [\"1\", \"1\", \"2\", \"3\", \"4\", \"5\", \"6\", \"7\", \"8\"]\n[[operation]]\nname = \"cas02\"\nresponse = [\"0\", \"1\", \"2\", \"3\", \"4\", \"5\", \"6\", \"7\", \"8\"]\nnext = [\"2\", \"1\", \"2\", \"3\", \"4\", \"5\", \"6\", \"7\", \"8\"]\n[[operation]]\nname = \"cas03\"\nresponse = [\"0\", \"1\", \"2\", \"3\", \"4\", \"5\", \"6\", \"7\", \"8\"]\nnext = [\"3\", \"1\", \"2\", \"3\", \"4\", \"5\", \"6\", \"7\", \"8\"]\n[[operation]]\nname = \"cas04\"\nresponse = [\"0\", \"1\", \"2\", \"3\", \"4\", \"5\", \"6\", \"7\", \"8\"]\nnext = [\"4\", \"1\", \"2\", \"3\", \"4\", \"5\", \"6\", \"7\", \"8\"]\n[[operation]]\nname = \"cas05\"\nresponse = [\"0\", \"1\", \"2\", \"3\", \"4\", \"5\", \"6\", \"7\", \"8\"]\nnext = [\"5\", \"1\", \"2\", \"3\", \"4\", \"5\", \"6\", \"7\", \"8\"]\n[[operation]]\nname = \"cas06\"\nresponse = [\"0\", \"1\", \"2\", \"3\", \"4\", \"5\", \"6\", \"7\", \"8\"]\nnext = [\"6\", \"1\", \"2\", \"3\", \"4\", \"5\", \"6\", \"7\", \"8\"]\n[[operation]]\nname = \"cas07\"\nresponse = [\"0\", \"1\", \"2\", \"3\", \"4\", \"5\", \"6\", \"7\", \"8\"]\nnext = [\"7\", \"1\", \"2\", \"3\", \"4\", \"5\", \"6\", \"7\", \"8\"]\n[[operation]]\nname = \"cas08\"\nresponse = [\"0\", \"1\", \"2\", \"3\", \"4\", \"5\", \"6\", \"7\", \"8\"]\nnext = [\"8\", \"1\", \"2\", \"3\", \"4\", \"5\", \"6\", \"7\", \"8\"]\n"
   }
  ]
 },
 {
  "name": {
   "en": "Swap with a cell of one's own",
   "de": "Tausch mit einer eigenen Zelle"
  },
  "types": [
   {
    "path": "catalogue/memory_swap_own_2",
    "about": {
     "en": "A token in one cell of a memory; each of 2 operations exchanges that cell with a cell of its own. The token goes to the cell of the first process and stays there: the number is 2, one process for each cell. Nothing is answered, so without a read it is 1. Literature: infinite for a memory that has a cell for each process (Herlihy 1991).",
     "de": "Eine Marke in einer Zelle eines Speichers; jede von 2 Operationen tauscht diese Zelle mit einer eigenen. Die Marke geht in die Zelle des ersten Prozesses und bleibt dort: die Zahl ist 2, ein Prozess für jede Zelle. Niemand bekommt etwas zur Antwort, also ist sie ohne Lesen 1. Literatur: unendlich für einen Speicher mit einer Zelle für jeden Prozess (Herlihy 1991)."
    },
    "text": "# A token in one cell of a memory; each of 2 operations exchanges that cell with a cell of its own.\n# The protocol for memory-to-memory swap: Herlihy 1991.\nname = \"memory_swap_own_2\"\nstates = [\"r\", \"c0\", \"c1\"]\nresponses = [\"ok\"]\n[[operation]]\nname = \"swap0\"\nresponse = [\"ok\", \"ok\", \"ok\"]\nnext = [\"c0\", \"r\", \"c1\"]\n[[operation]]\nname = \"swap1\"\nresponse = [\"ok\", \"ok\", \"ok\"]\nnext = [\"c1\", \"c0\", \"r\"]\n"
   },
   {
    "path": "catalogue/memory_swap_own_3",
    "about": {
     "en": "A token in one cell of a memory; each of 3 operations exchanges that cell with a cell of its own. The token goes to the cell of the first process and stays there: the number is 3, one process for each cell. Nothing is answered, so without a read it is 1. Literature: infinite for a memory that has a cell for each process (Herlihy 1991).",
     "de": "Eine Marke in einer Zelle eines Speichers; jede von 3 Operationen tauscht diese Zelle mit einer eigenen. Die Marke geht in die Zelle des ersten Prozesses und bleibt dort: die Zahl ist 3, ein Prozess für jede Zelle. Niemand bekommt etwas zur Antwort, also ist sie ohne Lesen 1. Literatur: unendlich für einen Speicher mit einer Zelle für jeden Prozess (Herlihy 1991)."
    },
    "text": "# A token in one cell of a memory; each of 3 operations exchanges that cell with a cell of its own.\n# The protocol for memory-to-memory swap: Herlihy 1991.\nname = \"memory_swap_own_3\"\nstates = [\"r\", \"c0\", \"c1\", \"c2\"]\nresponses = [\"ok\"]\n[[operation]]\nname = \"swap0\"\nresponse = [\"ok\", \"ok\", \"ok\", \"ok\"]\nnext = [\"c0\", \"r\", \"c1\", \"c2\"]\n[[operation]]\nname = \"swap1\"\nresponse = [\"ok\", \"ok\", \"ok\", \"ok\"]\nnext = [\"c1\", \"c0\", \"r\", \"c2\"]\n[[operation]]\nname = \"swap2\"\nresponse = [\"ok\", \"ok\", \"ok\", \"ok\"]\nnext = [\"c2\", \"c0\", \"c1\", \"r\"]\n"
   },
   {
    "path": "catalogue/memory_swap_own_4",
    "about": {
     "en": "A token in one cell of a memory; each of 4 operations exchanges that cell with a cell of its own. The token goes to the cell of the first process and stays there: the number is 4, one process for each cell. Nothing is answered, so without a read it is 1. Literature: infinite for a memory that has a cell for each process (Herlihy 1991).",
     "de": "Eine Marke in einer Zelle eines Speichers; jede von 4 Operationen tauscht diese Zelle mit einer eigenen. Die Marke geht in die Zelle des ersten Prozesses und bleibt dort: die Zahl ist 4, ein Prozess für jede Zelle. Niemand bekommt etwas zur Antwort, also ist sie ohne Lesen 1. Literatur: unendlich für einen Speicher mit einer Zelle für jeden Prozess (Herlihy 1991)."
    },
    "text": "# A token in one cell of a memory; each of 4 operations exchanges that cell with a cell of its own.\n# The protocol for memory-to-memory swap: Herlihy 1991.\nname = \"memory_swap_own_4\"\nstates = [\"r\", \"c0\", \"c1\", \"c2\", \"c3\"]\nresponses = [\"ok\"]\n[[operation]]\nname = \"swap0\"\nresponse = [\"ok\", \"ok\", \"ok\", \"ok\", \"ok\"]\nnext = [\"c0\", \"r\", \"c1\", \"c2\", \"c3\"]\n[[operation]]\nname = \"swap1\"\nresponse = [\"ok\", \"ok\", \"ok\", \"ok\", \"ok\"]\nnext = [\"c1\", \"c0\", \"r\", \"c2\", \"c3\"]\n[[operation]]\nname = \"swap2\"\nresponse = [\"ok\", \"ok\", \"ok\", \"ok\", \"ok\"]\nnext = [\"c2\", \"c0\", \"c1\", \"r\", \"c3\"]\n[[operation]]\nname = \"swap3\"\nresponse = [\"ok\", \"ok\", \"ok\", \"ok\", \"ok\"]\nnext = [\"c3\", \"c0\", \"c1\", \"c2\", \"r\"]\n"
   },
   {
    "path": "catalogue/memory_swap_own_5",
    "about": {
     "en": "A token in one cell of a memory; each of 5 operations exchanges that cell with a cell of its own. The token goes to the cell of the first process and stays there: the number is 5, one process for each cell. Nothing is answered, so without a read it is 1. Literature: infinite for a memory that has a cell for each process (Herlihy 1991).",
     "de": "Eine Marke in einer Zelle eines Speichers; jede von 5 Operationen tauscht diese Zelle mit einer eigenen. Die Marke geht in die Zelle des ersten Prozesses und bleibt dort: die Zahl ist 5, ein Prozess für jede Zelle. Niemand bekommt etwas zur Antwort, also ist sie ohne Lesen 1. Literatur: unendlich für einen Speicher mit einer Zelle für jeden Prozess (Herlihy 1991)."
    },
    "text": "# A token in one cell of a memory; each of 5 operations exchanges that cell with a cell of its own.\n# The protocol for memory-to-memory swap: Herlihy 1991.\nname = \"memory_swap_own_5\"\nstates = [\"r\", \"c0\", \"c1\", \"c2\", \"c3\", \"c4\"]\nresponses = [\"ok\"]\n[[operation]]\nname = \"swap0\"\nresponse = [\"ok\", \"ok\", \"ok\", \"ok\", \"ok\", \"ok\"]\nnext = [\"c0\", \"r\", \"c1\", \"c2\", \"c3\", \"c4\"]\n[[operation]]\nname = \"swap1\"\nresponse = [\"ok\", \"ok\", \"ok\", \"ok\", \"ok\", \"ok\"]\nnext = [\"c1\", \"c0\", \"r\", \"c2\", \"c3\", \"c4\"]\n[[operation]]\nname = \"swap2\"\nresponse = [\"ok\", \"ok\", \"ok\", \"ok\", \"ok\", \"ok\"]\nnext = [\"c2\", \"c0\", \"c1\", \"r\", \"c3\", \"c4\"]\n[[operation]]\nname = \"swap3\"\nresponse = [\"ok\", \"ok\", \"ok\", \"ok\", \"ok\", \"ok\"]\nnext = [\"c3\", \"c0\", \"c1\", \"c2\", \"r\", \"c4\"]\n[[operation]]\nname = \"swap4\"\nresponse = [\"ok\", \"ok\", \"ok\", \"ok\", \"ok\", \"ok\"]\nnext = [\"c4\", \"c0\", \"c1\", \"c2\", \"c3\", \"r\"]\n"
   },
   {
    "path": "catalogue/memory_swap_own_6",
    "about": {
     "en": "A token in one cell of a memory; each of 6 operations exchanges that cell with a cell of its own. The token goes to the cell of the first process and stays there: the number is 6, one process for each cell. Nothing is answered, so without a read it is 1. Literature: infinite for a memory that has a cell for each process (Herlihy 1991).",
     "de": "Eine Marke in einer Zelle eines Speichers; jede von 6 Operationen tauscht diese Zelle mit einer eigenen. Die Marke geht in die Zelle des ersten Prozesses und bleibt dort: die Zahl ist 6, ein Prozess für jede Zelle. Niemand bekommt etwas zur Antwort, also ist sie ohne Lesen 1. Literatur: unendlich für einen Speicher mit einer Zelle für jeden Prozess (Herlihy 1991)."
    },
    "text": "# A token in one cell of a memory; each of 6 operations exchanges that cell with a cell of its own.\n# The protocol for memory-to-memory swap: Herlihy 1991.\nname = \"memory_swap_own_6\"\nstates = [\"r\", \"c0\", \"c1\", \"c2\", \"c3\", \"c4\", \"c5\"]\nresponses = [\"ok\"]\n[[operation]]\nname = \"swap0\"\nresponse = [\"ok\", \"ok\", \"ok\", \"ok\", \"ok\", \"ok\", \"ok\"]\nnext = [\"c0\", \"r\", \"c1\", \"c2\", \"c3\", \"c4\", \"c5\"]\n[[operation]]\nname = \"swap1\"\nresponse = [\"ok\", \"ok\", \"ok\", \"ok\", \"ok\", \"ok\", \"ok\"]\nnext = [\"c1\", \"c0\", \"r\", \"c2\", \"c3\", \"c4\", \"c5\"]\n[[operation]]\nname = \"swap2\"\nresponse = [\"ok\", \"ok\", \"ok\", \"ok\", \"ok\", \"ok\", \"ok\"]\nnext = [\"c2\", \"c0\", \"c1\", \"r\", \"c3\", \"c4\", \"c5\"]\n[[operation]]\nname = \"swap3\"\nresponse = [\"ok\", \"ok\", \"ok\", \"ok\", \"ok\", \"ok\", \"ok\"]\nnext = [\"c3\", \"c0\", \"c1\", \"c2\", \"r\", \"c4\", \"c5\"]\n[[operation]]\nname = \"swap4\"\nresponse = [\"ok\", \"ok\", \"ok\", \"ok\", \"ok\", \"ok\", \"ok\"]\nnext = [\"c4\", \"c0\", \"c1\", \"c2\", \"c3\", \"r\", \"c5\"]\n[[operation]]\nname = \"swap5\"\nresponse = [\"ok\", \"ok\", \"ok\", \"ok\", \"ok\", \"ok\", \"ok\"]\nnext = [\"c5\", \"c0\", \"c1\", \"c2\", \"c3\", \"c4\", \"r\"]\n"
   },
   {
    "path": "catalogue/memory_swap_own_7",
    "about": {
     "en": "A token in one cell of a memory; each of 7 operations exchanges that cell with a cell of its own. The token goes to the cell of the first process and stays there: the number is 7, one process for each cell. Nothing is answered, so without a read it is 1. Literature: infinite for a memory that has a cell for each process (Herlihy 1991).",
     "de": "Eine Marke in einer Zelle eines Speichers; jede von 7 Operationen tauscht diese Zelle mit einer eigenen. Die Marke geht in die Zelle des ersten Prozesses und bleibt dort: die Zahl ist 7, ein Prozess für jede Zelle. Niemand bekommt etwas zur Antwort, also ist sie ohne Lesen 1. Literatur: unendlich für einen Speicher mit einer Zelle für jeden Prozess (Herlihy 1991)."
    },
    "text": "# A token in one cell of a memory; each of 7 operations exchanges that cell with a cell of its own.\n# The protocol for memory-to-memory swap: Herlihy 1991.\nname = \"memory_swap_own_7\"\nstates = [\"r\", \"c0\", \"c1\", \"c2\", \"c3\", \"c4\", \"c5\", \"c6\"]\nresponses = [\"ok\"]\n[[operation]]\nname = \"swap0\"\nresponse = [\"ok\", \"ok\", \"ok\", \"ok\", \"ok\", \"ok\", \"ok\", \"ok\"]\nnext = [\"c0\", \"r\", \"c1\", \"c2\", \"c3\", \"c4\", \"c5\", \"c6\"]\n[[operation]]\nname = \"swap1\"\nresponse = [\"ok\", \"ok\", \"ok\", \"ok\", \"ok\", \"ok\", \"ok\", \"ok\"]\nnext = [\"c1\", \"c0\", \"r\", \"c2\", \"c3\", \"c4\", \"c5\", \"c6\"]\n[[operation]]\nname = \"swap2\"\nresponse = [\"ok\", \"ok\", \"ok\", \"ok\", \"ok\", \"ok\", \"ok\", \"ok\"]\nnext = [\"c2\", \"c0\", \"c1\", \"r\", \"c3\", \"c4\", \"c5\", \"c6\"]\n[[operation]]\nname = \"swap3\"\nresponse = [\"ok\", \"ok\", \"ok\", \"ok\", \"ok\", \"ok\", \"ok\", \"ok\"]\nnext = [\"c3\", \"c0\", \"c1\", \"c2\", \"r\", \"c4\", \"c5\", \"c6\"]\n[[operation]]\nname = \"swap4\"\nresponse = [\"ok\", \"ok\", \"ok\", \"ok\", \"ok\", \"ok\", \"ok\", \"ok\"]\nnext = [\"c4\", \"c0\", \"c1\", \"c2\", \"c3\", \"r\", \"c5\", \"c6\"]\n[[operation]]\nname = \"swap5\"\nresponse = [\"ok\", \"ok\", \"ok\", \"ok\", \"ok\", \"ok\", \"ok\", \"ok\"]\nnext = [\"c5\", \"c0\", \"c1\", \"c2\", \"c3\", \"c4\", \"r\", \"c6\"]\n[[operation]]\nname = \"swap6\"\nresponse = [\"ok\", \"ok\", \"ok\", \"ok\", \"ok\", \"ok\", \"ok\", \"ok\"]\nnext = [\"c6\", \"c0\", \"c1\", \"c2\", \"c3\", \"c4\", \"c5\", \"r\"]\n"
   },
   {
    "path": "catalogue/memory_swap_own_8",
    "about": {
     "en": "A token in one cell of a memory; each of 8 operations exchanges that cell with a cell of its own. The token goes to the cell of the first process and stays there: the number is 8, one process for each cell. Nothing is answered, so without a read it is 1. Literature: infinite for a memory that has a cell for each process (Herlihy 1991).",
     "de": "Eine Marke in einer Zelle eines Speichers; jede von 8 Operationen tauscht diese Zelle mit einer eigenen. Die Marke geht in die Zelle des ersten Prozesses und bleibt dort: die Zahl ist 8, ein Prozess für jede Zelle. Niemand bekommt etwas zur Antwort, also ist sie ohne Lesen 1. Literatur: unendlich für einen Speicher mit einer Zelle für jeden Prozess (Herlihy 1991)."
    },
    "text": "# A token in one cell of a memory; each of 8 operations exchanges that cell with a cell of its own.\n# The protocol for memory-to-memory swap: Herlihy 1991.\nname = \"memory_swap_own_8\"\nstates = [\"r\", \"c0\", \"c1\", \"c2\", \"c3\", \"c4\", \"c5\", \"c6\", \"c7\"]\nresponses = [\"ok\"]\n[[operation]]\nname = \"swap0\"\nresponse = [\"ok\", \"ok\", \"ok\", \"ok\", \"ok\", \"ok\", \"ok\", \"ok\", \"ok\"]\nnext = [\"c0\", \"r\", \"c1\", \"c2\", \"c3\", \"c4\", \"c5\", \"c6\", \"c7\"]\n[[operation]]\nname = \"swap1\"\nresponse = [\"ok\", \"ok\", \"ok\", \"ok\", \"ok\", \"ok\", \"ok\", \"ok\", \"ok\"]\nnext = [\"c1\", \"c0\", \"r\", \"c2\", \"c3\", \"c4\", \"c5\", \"c6\", \"c7\"]\n[[operation]]\nname = \"swap2\"\nresponse = [\"ok\", \"ok\", \"ok\", \"ok\", \"ok\", \"ok\", \"ok\", \"ok\", \"ok\"]\nnext = [\"c2\", \"c0\", \"c1\", \"r\", \"c3\", \"c4\", \"c5\", \"c6\", \"c7\"]\n[[operation]]\nname = \"swap3\"\nresponse = [\"ok\", \"ok\", \"ok\", \"ok\", \"ok\", \"ok\", \"ok\", \"ok\", \"ok\"]\nnext = [\"c3\", \"c0\", \"c1\", \"c2\", \"r\", \"c4\", \"c5\", \"c6\", \"c7\"]\n[[operation]]\nname = \"swap4\"\nresponse = [\"ok\", \"ok\", \"ok\", \"ok\", \"ok\", \"ok\", \"ok\", \"ok\", \"ok\"]\nnext = [\"c4\", \"c0\", \"c1\", \"c2\", \"c3\", \"r\", \"c5\", \"c6\", \"c7\"]\n[[operation]]\nname = \"swap5\"\nresponse = [\"ok\", \"ok\", \"ok\", \"ok\", \"ok\", \"ok\", \"ok\", \"ok\", \"ok\"]\nnext = [\"c5\", \"c0\", \"c1\", \"c2\", \"c3\", \"c4\", \"r\", \"c6\", \"c7\"]\n[[operation]]\nname = \"swap6\"\nresponse = [\"ok\", \"ok\", \"ok\", \"ok\", \"ok\", \"ok\", \"ok\", \"ok\", \"ok\"]\nnext = [\"c6\", \"c0\", \"c1\", \"c2\", \"c3\", \"c4\", \"c5\", \"r\", \"c7\"]\n[[operation]]\nname = \"swap7\"\nresponse = [\"ok\", \"ok\", \"ok\", \"ok\", \"ok\", \"ok\", \"ok\", \"ok\", \"ok\"]\nnext = [\"c7\", \"c0\", \"c1\", \"c2\", \"c3\", \"c4\", \"c5\", \"c6\", \"r\"]\n"
   }
  ]
 },
 {
  "name": {
   "en": "The types T",
   "de": "Die Typen T"
  },
  "types": [
   {
    "path": "catalogue/t_2",
    "about": {
     "en": "Answers with the letter of the first call, and starts anew after 1 more of op_a or 1 more of op_b. It starts anew only when 2 processes cannot be misled by it: the number is 2, and one less if they may crash and come back. Literature: after the types of Delporte-Gallet, Fatourou, Fauconnier and Ruppert 2022.",
     "de": "Antwortet mit dem Buchstaben des ersten Aufrufs und beginnt nach einigen Aufrufen neu, so spät, dass 2 Prozesse es nicht merken: die Zahl ist 2, und eins weniger, wenn sie abstürzen und wiederkommen können. Literatur: nach den Typen von Delporte-Gallet, Fatourou, Fauconnier and Ruppert 2022."
    },
    "text": "# Answers with the letter of the first call, and starts anew after 1 more of op_a or 1 more of op_b.\n# After the types T_n of Delporte-Gallet, Fatourou, Fauconnier and Ruppert 2022.\nname = \"t_2\"\nstates = [\"n00\", \"a00\", \"b00\"]\nresponses = [\"a\", \"b\"]\n[[operation]]\nname = \"op_a\"\nresponse = [\"a\", \"a\", \"b\"]\nnext = [\"a00\", \"n00\", \"n00\"]\n[[operation]]\nname = \"op_b\"\nresponse = [\"b\", \"a\", \"b\"]\nnext = [\"b00\", \"n00\", \"n00\"]\n"
   },
   {
    "path": "catalogue/t_3",
    "about": {
     "en": "Answers with the letter of the first call, and starts anew after 1 more of op_a or 2 more of op_b. It starts anew only when 3 processes cannot be misled by it: the number is 3, and one less if they may crash and come back. Literature: after the types of Delporte-Gallet, Fatourou, Fauconnier and Ruppert 2022.",
     "de": "Antwortet mit dem Buchstaben des ersten Aufrufs und beginnt nach einigen Aufrufen neu, so spät, dass 3 Prozesse es nicht merken: die Zahl ist 3, und eins weniger, wenn sie abstürzen und wiederkommen können. Literatur: nach den Typen von Delporte-Gallet, Fatourou, Fauconnier and Ruppert 2022."
    },
    "text": "# Answers with the letter of the first call, and starts anew after 1 more of op_a or 2 more of op_b.\n# After the types T_n of Delporte-Gallet, Fatourou, Fauconnier and Ruppert 2022.\nname = \"t_3\"\nstates = [\"n00\", \"a00\", \"b00\", \"a10\", \"b10\"]\nresponses = [\"a\", \"b\"]\n[[operation]]\nname = \"op_a\"\nresponse = [\"a\", \"a\", \"b\", \"a\", \"b\"]\nnext = [\"a00\", \"n00\", \"n00\", \"n00\", \"n00\"]\n[[operation]]\nname = \"op_b\"\nresponse = [\"b\", \"a\", \"b\", \"a\", \"b\"]\nnext = [\"b00\", \"a10\", \"b10\", \"n00\", \"n00\"]\n"
   },
   {
    "path": "catalogue/t_4",
    "about": {
     "en": "Answers with the letter of the first call, and starts anew after 2 more of op_a or 2 more of op_b. It starts anew only when 4 processes cannot be misled by it: the number is 4, and two less if they may crash and come back. Literature: after the types of Delporte-Gallet, Fatourou, Fauconnier and Ruppert 2022.",
     "de": "Antwortet mit dem Buchstaben des ersten Aufrufs und beginnt nach einigen Aufrufen neu, so spät, dass 4 Prozesse es nicht merken: die Zahl ist 4, und zwei weniger, wenn sie abstürzen und wiederkommen können. Literatur: nach den Typen von Delporte-Gallet, Fatourou, Fauconnier and Ruppert 2022."
    },
    "text": "# Answers with the letter of the first call, and starts anew after 2 more of op_a or 2 more of op_b.\n# After the types T_n of Delporte-Gallet, Fatourou, Fauconnier and Ruppert 2022.\nname = \"t_4\"\nstates = [\"n00\", \"a00\", \"b00\", \"a01\", \"a10\", \"b01\", \"b10\", \"a11\", \"b11\"]\nresponses = [\"a\", \"b\"]\n[[operation]]\nname = \"op_a\"\nresponse = [\"a\", \"a\", \"b\", \"a\", \"a\", \"b\", \"b\", \"a\", \"b\"]\nnext = [\"a00\", \"a01\", \"b01\", \"n00\", \"a11\", \"n00\", \"b11\", \"n00\", \"n00\"]\n[[operation]]\nname = \"op_b\"\nresponse = [\"b\", \"a\", \"b\", \"a\", \"a\", \"b\", \"b\", \"a\", \"b\"]\nnext = [\"b00\", \"a10\", \"b10\", \"a11\", \"n00\", \"b11\", \"n00\", \"n00\", \"n00\"]\n"
   },
   {
    "path": "catalogue/t_5",
    "about": {
     "en": "Answers with the letter of the first call, and starts anew after 2 more of op_a or 3 more of op_b. It starts anew only when 5 processes cannot be misled by it: the number is 5, and two less if they may crash and come back. Literature: after the types of Delporte-Gallet, Fatourou, Fauconnier and Ruppert 2022.",
     "de": "Antwortet mit dem Buchstaben des ersten Aufrufs und beginnt nach einigen Aufrufen neu, so spät, dass 5 Prozesse es nicht merken: die Zahl ist 5, und zwei weniger, wenn sie abstürzen und wiederkommen können. Literatur: nach den Typen von Delporte-Gallet, Fatourou, Fauconnier and Ruppert 2022."
    },
    "text": "# Answers with the letter of the first call, and starts anew after 2 more of op_a or 3 more of op_b.\n# After the types T_n of Delporte-Gallet, Fatourou, Fauconnier and Ruppert 2022.\nname = \"t_5\"\nstates = [\"n00\", \"a00\", \"b00\", \"a01\", \"a10\", \"b01\", \"b10\", \"a11\", \"a20\", \"b11\", \"b20\", \"a21\", \"b21\"]\nresponses = [\"a\", \"b\"]\n[[operation]]\nname = \"op_a\"\nresponse = [\"a\", \"a\", \"b\", \"a\", \"a\", \"b\", \"b\", \"a\", \"a\", \"b\", \"b\", \"a\", \"b\"]\nnext = [\"a00\", \"a01\", \"b01\", \"n00\", \"a11\", \"n00\", \"b11\", \"n00\", \"a21\", \"n00\", \"b21\", \"n00\", \"n00\"]\n[[operation]]\nname = \"op_b\"\nresponse = [\"b\", \"a\", \"b\", \"a\", \"a\", \"b\", \"b\", \"a\", \"a\", \"b\", \"b\", \"a\", \"b\"]\nnext = [\"b00\", \"a10\", \"b10\", \"a11\", \"a20\", \"b11\", \"b20\", \"a21\", \"n00\", \"b21\", \"n00\", \"n00\", \"n00\"]\n"
   }
  ]
 }
];
Cnum.exampleWords = {
 "TAS": [
  "test_and_set",
  "test_and_set_reset",
  "trylock_unlock"
 ],
 "test and set": [
  "test_and_set",
  "test_and_set_reset"
 ],
 "atomic flag": [
  "test_and_set_reset"
 ],
 "spinlock": [
  "test_and_set_reset",
  "trylock_unlock"
 ],
 "lock": [
  "trylock_unlock",
  "rwlock_try",
  "test_and_set_reset"
 ],
 "mutex": [
  "trylock_unlock",
  "test_and_set_reset"
 ],
 "try lock": [
  "trylock_unlock",
  "rwlock_try"
 ],
 "futex": [
  "cas_3",
  "trylock_unlock",
  "semaphore_3"
 ],
 "rwlock": [
  "rwlock_try"
 ],
 "reader writer lock": [
  "rwlock_try"
 ],
 "semaphore": [
  "semaphore_3",
  "weighted_semaphore_3"
 ],
 "CAS": [
  "cas_3",
  "cas_4",
  "cas_3_bool",
  "cas_2"
 ],
 "compare and swap": [
  "cas_3",
  "cas_4",
  "cas_3_bool",
  "cas_2"
 ],
 "cmpxchg": [
  "cas_3",
  "cas_3_bool",
  "swap_if_zero"
 ],
 "compare exchange": [
  "cas_3",
  "cas_3_bool"
 ],
 "compareAndSet": [
  "cas_3_bool",
  "cas_3"
 ],
 "compareAndExchange": [
  "cas_3"
 ],
 "cmpxchg16b": [
  "dcas_2x2",
  "cas_3"
 ],
 "CASP": [
  "dcas_2x2"
 ],
 "DCAS": [
  "dcas_2x2"
 ],
 "ABA": [
  "ll_sc_2",
  "cas_3"
 ],
 "FAA": [
  "fetch_add_mod4",
  "fetch_inc_mod4",
  "wrapping_add_1_2"
 ],
 "fetch and add": [
  "fetch_add_mod4",
  "fetch_inc_mod4",
  "wrapping_add_1_2"
 ],
 "fetch and increment": [
  "fetch_inc_mod4"
 ],
 "xadd": [
  "fetch_add_mod4",
  "wrapping_add_1_2"
 ],
 "ldadd": [
  "fetch_add_mod4"
 ],
 "amoadd": [
  "fetch_add_mod4",
  "riscv_amo_3bit"
 ],
 "getAndAdd": [
  "fetch_add_mod4",
  "wrapping_add_1_2"
 ],
 "fetch add": [
  "fetch_add_mod4",
  "wrapping_add_1_2"
 ],
 "fetch sub": [
  "fetch_add_mod4"
 ],
 "ticket": [
  "fetch_inc_mod8"
 ],
 "atomic counter": [
  "fetch_inc_mod4",
  "counter_read_mod4"
 ],
 "xchg": [
  "swap_3",
  "swap_2",
  "swap_4"
 ],
 "exchange": [
  "swap_3",
  "swap_2",
  "swap_4"
 ],
 "getAndSet": [
  "swap_3"
 ],
 "swp": [
  "swap_3"
 ],
 "amoswap": [
  "swap_3",
  "riscv_amo_3bit"
 ],
 "fetch max": [
  "fetch_max_4"
 ],
 "amomax": [
  "fetch_max_4",
  "riscv_amo_3bit"
 ],
 "nand": [
  "fetch_nand_3bit"
 ],
 "ldset": [
  "fetch_or_2bit"
 ],
 "ldclr": [
  "fetch_and_2bit"
 ],
 "ldeor": [
  "fetch_xor_2bit"
 ],
 "bts": [
  "bit_change_2bit",
  "test_and_set"
 ],
 "btr": [
  "bit_change_2bit"
 ],
 "btc": [
  "bit_change_2bit",
  "flip"
 ],
 "LL/SC": [
  "ll_sc_2"
 ],
 "load linked": [
  "ll_sc_2"
 ],
 "store conditional": [
  "ll_sc_2"
 ],
 "ldxr": [
  "ll_sc_2"
 ],
 "stxr": [
  "ll_sc_2"
 ],
 "ldrex": [
  "ll_sc_2"
 ],
 "LR/SC": [
  "ll_sc_2"
 ],
 "lr.w": [
  "ll_sc_2"
 ],
 "fifo": [
  "queue_2",
  "queue_1",
  "queue_3",
  "peek_queue_2"
 ],
 "lifo": [
  "stack_2",
  "stack_3"
 ],
 "heap": [
  "priority_queue_2",
  "priority_queue_3"
 ],
 "channel": [
  "mailbox_refuse",
  "mailbox_latest",
  "queue_2"
 ],
 "bounded buffer": [
  "queue_2",
  "mailbox_refuse"
 ],
 "mpsc": [
  "queue_2",
  "mailbox_refuse"
 ],
 "ring buffer": [
  "queue_3",
  "window_3"
 ],
 "mailbox": [
  "mailbox_refuse",
  "mailbox_latest"
 ],
 "watch": [
  "mailbox_latest"
 ],
 "once": [
  "once_cell",
  "sticky_bit",
  "test_and_set"
 ],
 "OnceLock": [
  "once_cell"
 ],
 "lazy": [
  "once_cell"
 ],
 "Arc": [
  "arc_drop_upgrade"
 ],
 "Weak": [
  "arc_drop_upgrade"
 ],
 "shared_ptr": [
  "arc_drop_upgrade"
 ],
 "reference count": [
  "arc_drop_upgrade",
  "counter_dec_sat"
 ],
 "refcount": [
  "arc_drop_upgrade",
  "counter_dec_sat"
 ],
 "overflow": [
  "wrapping_add_1_2",
  "saturating_add_1_2",
  "checked_add_1_2"
 ],
 "fetch update": [
  "fetch_update_add_1_2"
 ],
 "atomicInc": [
  "cuda_inc_dec_2_2",
  "cuda_inc_dec_2_3"
 ],
 "atomicDec": [
  "cuda_inc_dec_2_2",
  "cuda_inc_dec_2_3"
 ],
 "atomicCAS": [
  "cas_3"
 ],
 "atomicAdd": [
  "fetch_add_mod4"
 ],
 "atomicExch": [
  "swap_3"
 ],
 "GPU": [
  "cuda_inc_dec_2_2",
  "cuda_inc_dec_2_3",
  "cas_3",
  "fetch_add_mod4"
 ],
 "CUDA": [
  "cuda_inc_dec_2_2",
  "cuda_inc_dec_2_3"
 ],
 "PTX": [
  "cuda_inc_dec_2_2",
  "cuda_inc_dec_2_3",
  "cas_3"
 ],
 "x86": [
  "cas_3",
  "fetch_add_mod4",
  "swap_3",
  "bit_change_2bit",
  "dcas_2x2"
 ],
 "ARM": [
  "ll_sc_2",
  "cas_3",
  "fetch_add_mod4",
  "swap_3"
 ],
 "LSE": [
  "cas_3",
  "fetch_add_mod4",
  "swap_3",
  "fetch_or_2bit",
  "fetch_and_2bit",
  "fetch_xor_2bit",
  "fetch_max_4",
  "fetch_min_4",
  "dcas_2x2"
 ],
 "RISC-V": [
  "riscv_amo_3bit",
  "riscv_amo_2bit",
  "riscv_amo_4bit",
  "ll_sc_2",
  "cas_3"
 ],
 "Zacas": [
  "cas_3"
 ],
 "crash": [
  "test_and_set",
  "shot_3",
  "t_4",
  "sticky_2"
 ],
 "volatile": [
  "register_2"
 ],
 "load store": [
  "register_2",
  "register_4"
 ],
 "Warteschlange": [
  "queue_2",
  "queue_1",
  "queue_3",
  "peek_queue_2"
 ],
 "Stapel": [
  "stack_2",
  "stack_3"
 ],
 "Sperre": [
  "trylock_unlock",
  "rwlock_try",
  "test_and_set_reset"
 ],
 "Zähler": [
  "fetch_inc_mod4",
  "counter_read_mod4"
 ],
 "Semaphor": [
  "semaphore_3",
  "weighted_semaphore_3"
 ],
 "Postfach": [
  "mailbox_refuse",
  "mailbox_latest"
 ],
 "Tausch": [
  "swap_3",
  "swap_2",
  "swap_4"
 ],
 "Absturz": [
  "test_and_set",
  "shot_3",
  "t_4",
  "sticky_2"
 ]
};
