/* What a case has to do with indexes: see index_counts.h. */
#include "index_counts.h"

#include "indexes.h"
#include "spaldep.h"
#include "tally.h"

/* ---- the maker ---- */

void count_index(const struct test_case *c, uint64_t answer, const struct index *left) {
  uint64_t records = c->block_len / RECORD_BYTES, events = 0, greatest = 0, classes = 0, cores = 0;
  if (spaldep_code(answer) != 0) return;
  for (int64_t class = 0; class < CLASSES; class++) {
    uint64_t of_class = events_by(left->bytes, class);
    events += of_class;
    classes += of_class > 0;
    if (of_class > greatest) greatest = of_class;
  }
  for (int64_t core = 0; core < CORES; core++) cores += core_by(left->bytes, core);
  tally.met[MET_INDEX_CLASSES] += classes == CLASSES;
  tally.met[MET_INDEX_CORES] += cores == CORES;
  tally.met[MET_INDEX_GREATEST] += greatest == RECORDS;
  tally.met[MET_INDEX_NO_RECORDS] += records == 0;
  tally.met[MET_INDEX_GAPS_ALONE] += records > 0 && events == 0;
  tally.met[MET_INDEX_GAPS] += events > 0 && events < records;
}

/* ---- searches that are refused ---- */

/* By an index that is not in order, or by what comes before that. */
static void count_bad_index(const struct index *index, uint64_t search, uint64_t forward) {
  unsigned code = spaldep_code(forward);
  if (spaldep_code(search) != SPALDEP_REFUSED_INDEX) {
    tally.met[MET_INDEX_BEHIND_PATTERN]++;
    return;
  }
  unsigned zero_bits = index->length == INDEX_BYTES ? (unsigned)field(index->bytes, ZERO_AT, 2) : 0;
  tally.met[MET_INDEX_SHORT] += index->length < INDEX_BYTES;
  tally.met[MET_INDEX_LONG] += index->length > INDEX_BYTES;
  tally.met[MET_INDEX_ZERO_FIRST] += zero_bits == 2;
  tally.met[MET_INDEX_ZERO_LAST] += zero_bits == 1;
  tally.met[MET_INDEX_BEFORE_BLOCK] += code >= SPALDEP_REFUSED_BLOCK_LENGTH && code <= SPALDEP_REFUSED_TIME;
  tally.met[MET_INDEX_BEFORE_LIMIT] += code == SPALDEP_REFUSED_LIMIT_OR_MEMORY;
}

/* ---- searches that cannot match ---- */

/* Why a pattern cannot match: a class or a core of the index's range, or one above it. */
enum { BY_CLASS = 1, BY_CORE = 2, BY_CLASS_ABOVE = 4, BY_CORE_ABOVE = 8 };

static unsigned reason(const struct condition *k, const uint8_t *index) {
  if (!rules_out(k, index)) return 0;
  if (k->attribute == CLASS) return k->constant < CLASSES ? BY_CLASS : BY_CLASS_ABOVE;
  return k->constant < CORES ? BY_CORE : BY_CORE_ABOVE;
}

/* A reason is counted where it is the only one. */
static void count_own_reasons(const struct pattern *p, const uint8_t *index) {
  unsigned reasons = 0;
  for (unsigned i = 0; i < p->c; i++) reasons |= reason(&p->condition[i], index);
  tally.met[MET_CANNOT_CLASS] += reasons == BY_CLASS;
  tally.met[MET_CANNOT_CORE] += reasons == BY_CORE;
  tally.met[MET_CANNOT_CLASS_ABOVE] += reasons == BY_CLASS_ABOVE;
  tally.met[MET_CANNOT_CORE_ABOVE] += reasons == BY_CORE_ABOVE;
}

/* With the block's own index there is nothing to report, so that 11 takes another one. */
static void count_cannot_match(const struct pattern *p, const uint8_t *index, bool own, uint64_t search,
                               uint64_t forward) {
  unsigned code = spaldep_code(forward);
  if (spaldep_code(search) != 0) {
    tally.met[MET_CANNOT_BLOCK_LENGTH] += spaldep_code(search) == SPALDEP_REFUSED_BLOCK_LENGTH;
    tally.met[MET_CANNOT_RECORD] += spaldep_code(search) == SPALDEP_REFUSED_RECORD;
    tally.met[MET_CANNOT_TIME] += spaldep_code(search) == SPALDEP_REFUSED_TIME;
    tally.met[MET_CANNOT_LIMIT] += spaldep_code(search) == SPALDEP_REFUSED_LIMIT_OR_MEMORY;
    return;
  }
  if (own) count_own_reasons(p, index);
  tally.met[MET_CANNOT_PEAK] += own && spaldep_peak(forward) > 0;
  tally.met[MET_CANNOT_BINDINGS] += own && code == SPALDEP_REFUSED_BINDINGS;
  tally.met[MET_CANNOT_LIVE] += own && code == SPALDEP_REFUSED_LIVE;
  tally.met[MET_CANNOT_ROOM] += !own && code == SPALDEP_REFUSED_RESULT_ROOM;
  tally.met[MET_CANNOT_LEFT_OUT] += !own && spaldep_readings(forward) > 0;
}

/* ---- searches that run the pass ---- */

/* Blocks of more records are not gone through for what no two events meet. */
enum { FEW_RECORDS = 120 };

/* Whether no event meets a condition, or no two events where it is between two variables. */
static bool never_met(const struct block *b, const struct condition *k) {
  for (size_t i = 0; i < b->count; i++)
    for (size_t j = is_join(k) ? 0 : i; j < (is_join(k) ? b->count : i + 1); j++)
      if (b->record[i].kind == EVENT && b->record[j].kind == EVENT && holds(b, k, i, j)) return false;
  return true;
}

/* What a condition is counted as that is never met and does not rule a pattern out; METS where it is not counted. */
static unsigned counted_as(const struct condition *k) {
  bool in_index = k->attribute == CLASS || k->attribute == CORE;
  if (k->form == WITH_ATTRIBUTE) return in_index && k->operator== EQUAL ? MET_RUNS_SECOND : METS;
  if (k->operator!= EQUAL) return in_index ? MET_RUNS_OPERATOR : METS;
  switch (k->attribute) {
    case TYPE: return k->constant > 255 ? MET_RUNS_ABOVE : MET_RUNS_TYPE;
    case SLOT: return MET_RUNS_SLOT;
    case AMOUNT: return MET_RUNS_AMOUNT;
    case WAVE: return k->constant > 255 ? MET_RUNS_ABOVE : MET_RUNS_WAVE;
    default: return METS;
  }
}

/* Only of searches whose answer is not the one of a pattern that cannot match. */
static void count_never_met(const struct test_case *c, const struct pattern *p) {
  static struct block b;
  bool met[METS + 1] = {false};
  if (c->block_len > RECORD_BYTES * FEW_RECORDS || read_block(c->block, c->block_len, &b) != 0) return;
  for (unsigned i = 0; i < p->c; i++)
    if (never_met(&b, &p->condition[i])) met[counted_as(&p->condition[i])] = true;
  for (unsigned i = 0; i < METS; i++) tally.met[i] += met[i];
}

void count_search(const struct test_case *c, const struct index *index, bool own, uint64_t search, uint64_t forward) {
  struct pattern p;
  uint64_t pattern = read_pattern(c->pattern, c->pattern_len, &p);
  if (!index_in_order(index->bytes, index->length)) {
    count_bad_index(index, search, forward);
    return;
  }
  if (pattern != 0) return;
  if (cannot_match(&p, index->bytes)) {
    count_cannot_match(&p, index->bytes, own, search, forward);
    return;
  }
  tally.met[MET_OWN_REPORT] += own && spaldep_readings(search) > 0;
  tally.met[MET_OTHER_REPORT] += !own && spaldep_readings(search) > 0;
  if (own && forward != 0 && spaldep_code(forward) != SPALDEP_REFUSED_LIMIT_OR_MEMORY) count_never_met(c, &p);
}
