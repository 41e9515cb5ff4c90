#include "longest.h"

#include <string.h>

/* Spoken alike in every company, unlike 1, which is `premier` alone; so it can be subtracted. */
enum { COMPANION = 2 };

/* A joiner is a space or a hyphen. */
enum { JOINER = 1 };

static enum place place_of(int follows, int ends) {
  if (follows) return ends ? LAST : BETWEEN;
  return ends ? ALONE : FIRST;
}

/* The largest group that figures up to the limit can have at an order. */
static int largest_group(const struct figure *limit, int order) {
  return order == limit->orders - 1 ? limit->groups[order] : GROUPS - 1;
}

/* The length of a group's phrase, with a companion at the order above, at order 0, or both. */
static size_t in_company(const struct figure *limit, const struct request *r, int order, int group,
                         int above, int below) {
  struct figure f = zero_like(limit);
  if (above) f.groups[order + 1] = COMPANION;
  if (below) f.groups[0] = COMPANION;
  f.groups[order] = group;
  return length_asked(r, &f);
}

/* What companions add is subtracted, so they must be learnt before: at order 0 and at the next. */
static void learn_group(struct lengths *l, const struct request *r, int order, int group) {
  const struct figure *limit = &l->limit;
  int has_below = order > 0, has_above = order < limit->orders - 1;
  size_t above = has_above ? l->groups[FIRST][order + 1][COMPANION] : 0;
  size_t below = l->groups[ALONE][0][COMPANION];
  l->groups[ALONE][order][group] = in_company(limit, r, order, group, 0, 0);
  if (has_below)
    l->groups[FIRST][order][group] = in_company(limit, r, order, group, 0, 1) - below;
  if (has_above)
    l->groups[LAST][order][group] = in_company(limit, r, order, group, 1, 0) - above;
  if (has_below && has_above)
    l->groups[BETWEEN][order][group] = in_company(limit, r, order, group, 1, 1) - above - below;
}

static void learn_hundredths(struct lengths *l, const struct request *r) {
  struct figure f = zero_like(&l->limit);
  f.groups[0] = COMPANION;
  size_t whole = length_asked(r, &f);
  for (f.hundredths = 1; f.hundredths < HUNDREDTHS; f.hundredths++)
    l->hundredths[f.hundredths] = length_asked(r, &f) - whole;
}

void learn_lengths(struct lengths *l, const struct request *r, const struct figure *limit) {
  memset(l, 0, sizeof *l);
  l->limit = *limit;
  l->groups[ALONE][0][0] = in_company(limit, r, 0, 0, 0, 0);
  l->groups[ALONE][0][COMPANION] = in_company(limit, r, 0, COMPANION, 0, 0);
  for (int order = limit->orders - 1; order >= 0; order--)
    for (int group = 1; group <= largest_group(limit, order); group++)
      learn_group(l, r, order, group);
  if (r->call->kind == MONEY) learn_hundredths(l, r);
}

size_t sum_of(const struct lengths *l, const struct figure *f) {
  size_t sum = f->hundredths ? l->hundredths[f->hundredths] : 0;
  int last = 0, follows = 0;
  /* Zero is only spoken if there is nothing else; hundredths then have nothing to be joined to. */
  if (is_zero(f)) return f->hundredths ? sum - JOINER : l->groups[ALONE][0][0];
  while (!f->groups[last]) last++;
  for (int order = f->orders - 1; order >= last; order--) {
    int group = f->groups[order];
    if (!group) continue;
    sum += l->groups[place_of(follows, order == last)][order][group];
    follows = 1;
  }
  return sum;
}

/*
 * The longest that a figure can go on from an order down, and by which group at that order; it
 * ends with that group or goes on below. A length of 0 stands for no way to go on.
 */
struct rest {
  size_t length;
  int group, ends;
};

/*
 * At the limit: all groups above are the limit's, so this one must not be above the limit's; once
 * a group is below the limit's, all groups after it are free.
 */
enum bound { FREE, AT_LIMIT, BOUNDS };

/* Whether a group that is not 0 stands above. */
enum company { OPENS, FOLLOWS, COMPANIES };

typedef struct rest rests[MOST_ORDERS][BOUNDS][COMPANIES];

static void take_longer(struct rest *best, size_t length, int group, int ends) {
  if (length <= best->length) return;
  best->length = length;
  best->group = group;
  best->ends = ends;
}

static struct rest longest_rest(const struct lengths *l, rests below, int order, int bound,
                                int follows) {
  struct rest best = {0, 0, 0};
  int most = bound == AT_LIMIT ? l->limit.groups[order] : GROUPS - 1;
  for (int group = 0; group <= most; group++) {
    int is_zero_alone = !group && !order && !follows;
    if (group || is_zero_alone)
      take_longer(&best, l->groups[place_of(follows, 1)][order][group], group, 1);
    if (!order) continue;
    size_t here = group ? l->groups[place_of(follows, 0)][order][group] : 0;
    int next_bound = bound == AT_LIMIT && group == most ? AT_LIMIT : FREE;
    size_t rest = below[order - 1][next_bound][follows || group].length;
    if (rest) take_longer(&best, here + rest, group, 0);
  }
  return best;
}

static int longest_hundredths(const struct lengths *l) {
  int best = 0;
  for (int i = 1; i < HUNDREDTHS; i++)
    if (l->hundredths[i] > l->hundredths[best]) best = i;
  return best;
}

struct figure longest_figure(const struct lengths *l) {
  rests all;
  int top = l->limit.orders - 1;
  for (int order = 0; order <= top; order++)
    for (int bound = FREE; bound < BOUNDS; bound++)
      for (int follows = OPENS; follows < COMPANIES; follows++)
        all[order][bound][follows] = longest_rest(l, all, order, bound, follows);
  struct figure f = zero_like(&l->limit);
  int bound = AT_LIMIT, follows = OPENS;
  for (int order = top; order >= 0; order--) {
    const struct rest *rest = &all[order][bound][follows];
    f.groups[order] = rest->group;
    if (rest->ends) break;
    if (rest->group != l->limit.groups[order]) bound = FREE;
    if (rest->group) follows = FOLLOWS;
  }
  f.hundredths = longest_hundredths(l);
  return f;
}
