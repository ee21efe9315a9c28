/*
 * Two tables of the bench: what it costs to make the index of a block and to search a block that cannot match, and what
 * a search over many blocks costs beside the forward pass over them.
 */
#ifndef SEARCHES_H
#define SEARCHES_H

#include <stdbool.h>

/*
 * Microseconds for a full block: those of the workloads, and one of gaps and all cores and classes mixed at random.
 *
 *   library, plain C   make the index; the ratio is the library's time over that of plain C
 *   check              the library checks the block
 *   pattern            the library checks the workload's pattern, which also asks for a core that no block has
 *   search             the library searches the block for that pattern, in vain: it checks both and looks into the
 *                      block's own index. With limit 1 and no room for a report it has next to nothing to clear.
 *   all lent           the same search with the most memory that a call has use for, which it clears
 *   clearing           memset of all that memory and nothing else: what the search with all lent has to do besides
 *
 * False where the library and the yardstick differ, or the search is not in vain.
 */
bool print_indexes(void);

/*
 * Milliseconds for 1,000 full blocks, each with its own index made beforehand and all memory lent. One block in twenty
 * can match; what the others lack decides what the forward pass has to do there. The last column is the time of the
 * library's search over that of its forward pass.
 *
 *   draws              events of the bench pattern's last set: readings begin and are followed, but none gets full
 *   a core             the one that the pattern's first variable here asks for: readings begin with the second alone
 *   every class        all three that the pattern asks for: nothing fires, and the forward pass is at its cheapest
 *
 * False where indexes, answers or results of library and yardstick differ, where a search and the forward pass report
 * different readings, or where other blocks than one in twenty have readings or can match.
 */
bool print_searches(void);

#endif
