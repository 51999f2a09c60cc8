/*
 * exact-root.h: ns-3's CoDel with another square root, to see what the root alone does.
 */
#ifndef MALTCOVE_EXACT_ROOT_H
#define MALTCOVE_EXACT_ROOT_H

/**
 * From here on CoDelQueueDisc computes the greatest root of 16 bits, in place of one step of Newton's method.
 *
 * The function that does so is neither virtual nor to be replaced by the linker. So its first bytes in memory are
 * overwritten by a jump. It is for an experiment, and works on x86-64 and Linux alone: elsewhere it answers false.
 */
bool UseExactRoot();

#endif
