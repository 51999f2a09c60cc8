/*
 * tun.c: opens TUN devices. It is of Linux.
 */
#define _GNU_SOURCE
#include "tun.h"

#include <errno.h>
#include <fcntl.h>
#include <net/if.h>
#include <stdio.h>
#include <string.h>
#include <sys/ioctl.h>
#include <unistd.h>

#include <linux/if_tun.h>

int tun_open(const char *name)
{
	struct ifreq request = { .ifr_flags = IFF_TUN | IFF_NO_PI };
	int file, cause;

	if (strlen(name) >= sizeof request.ifr_name) {
		errno = ENAMETOOLONG;
		return -1;
	}
	snprintf(request.ifr_name, sizeof request.ifr_name, "%s", name);
	file = open("/dev/net/tun", O_RDWR | O_NONBLOCK | O_CLOEXEC);
	if (file < 0)
		return -1;
	if (ioctl(file, TUNSETIFF, &request) == 0)
		return file;
	cause = errno;
	close(file);
	errno = cause;
	return -1;
}
