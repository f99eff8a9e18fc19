/* The number of the last error, for the program. */
extern int *__errno_location(void);
int rattle_errno(void);
void rattle_set_errno(int);

int rattle_errno(void) { return *__errno_location(); }
void rattle_set_errno(int error) { *__errno_location() = error; }
