void *memchr(const void *, int, __SIZE_TYPE__);
int memcmp(const void *, const void *, __SIZE_TYPE__);
void *memcpy(void *, const void *, __SIZE_TYPE__);
__SIZE_TYPE__ strlen(const char *);
int strncmp(const char *, const char *, __SIZE_TYPE__);
