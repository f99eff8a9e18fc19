/* The version of the library: scripts/library defines VERSION by the file of this name. */
const char *balisecheck_version(void);
const char *balisecheck_version(void) { return VERSION; }
