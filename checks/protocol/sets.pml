/* How sets are published, removed and asked (docs/SETS.md). The manifest is a register with versions: each put, and each removal
   of it, acts only under the key that the version before determines (keys.pml says why), so `cur` is
   a number that only grows. A part's name is its content (0..NC-1) and the version it was put on (its
   base). man[v,c] is the base of content c in version v, 0 where v hasn't it. No claims, no clocks.
   A publisher may stop for any time before any request and then still make it, or die.
   Rule of removal, the same for all: LIST the projects first (once, before anything is put, and with
   what was put since), then READ the manifest; what was listed, isn't named by it and isn't based on
   it is garbage for ever, and may go at any later time.
   -DNP=  publishers (2, 3), the last one's revision is R[NP]; -DREMOVER: publisher 2 removes the set; -DNOASK: no asker; -DLASTREMOVES: the last one
   removes the set; -DREFENCE: once more after all puts too (no room);
   -DTWO: contents 1 and 3 are on a second server, which is listed by itself (a surface)
   Mutations, each of which has to be found: -DBAD_ORDER (listed anew after the manifest is read), -DBAD_NAME
   (names by content alone), -DBAD_BASE (what isn't named goes, based on it or not), -DBAD_ASK (no look at
   the manifest after the answer), -DBAD_KEY (the manifest's key doesn't depend on the one before) */
#ifndef NP
#define NP 2
#endif
#ifndef CRASHES
#define CRASHES 1
#endif
#ifndef Q
#define Q 1
#endif
#define NC 4
#ifdef REFENCE
#define NV (3*NP+5)
#else
#define NV (2*NP+5)
#endif
#define NB (NV+1)
#define M(v,c) man[(v)*NC+(c)]
#define BIT(m,c) (((m) >> (c)) & 1)
/* content 0 is in each revision */
#define REVOF(i) ((i)==0 -> 3 : ((i)==1 -> 5 : ((i)==2 -> R2 : ((i)==3 -> 7 : RLAST))))
#ifdef LASTREMOVES
#define RLAST 0
#else
#define RLAST 3
#endif
#ifdef R2
#elif defined(REMOVER)
#define R2 0
#else
#define R2 9
#endif

byte man[NV*NC];             /* grows; versions are never changed */
byte there[NB];              /* by base: the contents that are on the server */
byte cur = 1, top = 1, ended = 0, crashes = 0;
byte t_i, t_b;               /* of atomic blocks alone; 0 outside */

inline maycrash() {
  if :: true :: crashes < CRASHES && me <= NP -> crashes++; goto dead fi }
inline whole(v, ok) {        /* ok: all parts of a version are there */
  ok = true; t_i = 0;
  do :: t_i == NC -> break
     :: else -> if :: M(v,t_i) != 0 && !BIT(there[M(v,t_i)], t_i) -> ok = false :: else fi; t_i++ od;
  t_i = 0 }
inline switched() {          /* the invariant */
  d_step { whole(cur, ok); assert(ok); ok = false } }

/* todo[b] = listed[b] without what version v names, and without what is based on it */
inline garbage(v) {
  t_b = 0;
  do :: t_b == NB -> break
     :: else ->
        t_i = 0;
        do :: t_i == NC -> break
           :: else -> if :: M(v,t_i) == t_b && t_b != 0 -> l[t_b] = l[t_b] & ~(1 << t_i) :: else fi; t_i++ od;
        t_b++ od;
  t_i = 0; t_b = 0;
#ifndef BAD_BASE
  l[v] = 0
#endif
}
inline list(on) {
  t_b = 0; do :: t_b == NB -> break :: else -> l[t_b] = l[t_b] | (there[t_b] & (on)); t_b++ od; t_b = 0 }
inline clean() {
#ifdef BAD_ORDER
  atomic { maycrash(); w = cur };
  atomic { maycrash(); list(15); garbage(w) };
#else
  atomic { maycrash(); w = cur; garbage(w) };
#endif
  do :: atomic { maycrash();
          b = 0; do :: b < NB && l[b] == 0 -> b++ :: else -> break od;
          if :: b == NB -> b = 0; w = 0; break :: else fi;
          c = 0; do :: !BIT(l[b], c) -> c++ :: else -> break od;
          assert(M(cur,c) != b);                 /* nothing of the set that is current */
          there[b] = there[b] & ~(1 << c); l[b] = l[b] & ~(1 << c); b = 0; c = 0 }
  od }

proctype Pub(byte me; byte rev) {
  byte v, w, b, c; byte l[NB]; bool ok, mine, again, fenced;
  atomic { maycrash(); v = cur };                /* read the manifest: the base */
relist:
#ifdef TWO
  atomic { maycrash(); list(5) }; atomic { maycrash(); list(10) };
#else
  atomic { maycrash(); list(15) };
#endif
  /* where something is based on it already, a publisher may fence that off: the same set again as a
     new version (where there is none: its key is used up) */
refence:
  if :: true
     :: !fenced && (top < NV - 3 || me > NP) -> atomic { maycrash();
#ifndef FENCE_LAST
          if :: me > NP -> goto nofence :: else fi;
#endif
          if :: cur == v -> top++;
                t_i = 0; do :: t_i == NC -> break :: else -> M(top,t_i) = M(v,t_i); t_i++ od; t_i = 0;
                cur = top; v = top; fenced = true
             :: else -> goto late fi };
        clean();
        goto relist;
nofence: skip
  fi;
  /* put what the base hasn't */
  do :: c == NC -> break
     :: c < NC && (!BIT(REVOF(rev), c) || M(v,c) != 0) -> c++
     :: else ->
#ifdef BAD_NAME
        if :: BIT(l[1], c) -> c++
           :: else -> atomic { maycrash(); there[1] = there[1] | (1 << c); l[1] = l[1] | (1 << c); c++ } fi
#else
        if :: BIT(l[v], c) -> c++                /* listed: one of the same base and content put it */
           :: else -> atomic { maycrash(); there[v] = there[v] | (1 << c); l[v] = l[v] | (1 << c); c++ } fi
#endif
  od;
#ifdef REFENCE
  if :: true :: !again && me <= NP -> again = true; fenced = false; c = 0; goto refence fi;
#endif
  atomic { maycrash(); c = 0;                    /* the switch */
#ifdef BAD_KEY
    if :: true -> top++;
#else
    if :: cur == v -> top++;
#endif
          t_i = 0;
          do :: t_i == NC -> break
             :: else ->
                if :: !BIT(REVOF(rev), t_i) -> skip
#ifdef BAD_NAME
                   :: BIT(REVOF(rev), t_i) -> M(top,t_i) = 1
#else
                   :: BIT(REVOF(rev), t_i) && M(v,t_i) != 0 -> M(top,t_i) = M(v,t_i)
                   :: BIT(REVOF(rev), t_i) && M(v,t_i) == 0 -> M(top,t_i) = v
#endif
                fi; t_i++ od;
          t_i = 0; cur = top; v = 0; mine = true; whole(cur, ok); assert(ok); ok = false
       :: else -> goto late fi };
late:
  v = 0; c = 0;
  clean();                                       /* a loser cleans too: its own is garbage by now */
  if :: me > NP ->                               /* the last one, alone: ended well, nothing is left */
        assert(mine);
        d_step { b = 0; do :: b == NB -> break :: else ->
            c = 0; do :: c == NC -> break :: else -> assert(!BIT(there[b],c) || M(cur,c) == b); c++ od; b++ od }
     :: else fi;
dead: ended++ }

proctype Ask() {
  byte h, q = 0; bool ok;
  do :: q == Q -> break
     :: else -> q++;
     if :: h == 0 -> h = cur :: else fi;
  again:
     skip; d_step { whole(h, ok) };                  /* the question: ok, where it's all of version h */
#ifndef BAD_ASK
     if :: cur == h -> skip :: else -> ok = false; h = cur; goto again fi;
#endif
     assert(ok); ok = false
  od }

init {
  d_step { M(1,0) = NV; M(1,1) = NV; there[NV] = 3
#ifdef BAD_NAME
    ; M(1,0) = 1; M(1,1) = 1; there[NV] = 0; there[1] = 3
#endif
  };
  atomic { run Pub(1, 1); run Pub(2, 2);
#if NP > 2
    run Pub(3, 3);
#endif
#ifndef NOASK
    run Ask()
#endif
  };
  (ended == NP);
  run Pub(NP+1, 4) }
