/*
 * tun.h: TUN devices, from which a program reads IP packets, and to which it writes them.
 */
#ifndef SHAPE_TUN_H
#define SHAPE_TUN_H

/* Opens the device of that name, and makes it where there is none. Reads don't wait. -1 where it failed, with errno. */
int tun_open(const char *name);

#endif
