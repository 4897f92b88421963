/* For measuring: each sync takes as long as on a disk that needs 2.5 ms, whatever disk is below.
 * cc -shared -fPIC -o slow_sync.so slow_sync.c, and LD_PRELOAD=slow_sync.so */
#include <unistd.h>

int fsync(int file)
{
    (void)file;
    usleep(2500);
    return 0;
}

int fdatasync(int file)
{
    return fsync(file);
}
