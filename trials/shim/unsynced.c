/* A disk whose syncs do nothing: preloaded, each says that all is well. */
int fsync(int fd)
{
    (void)fd;
    return 0;
}

int fdatasync(int fd)
{
    (void)fd;
    return 0;
}
