/* Two functions and a variable that nothing defines. */
int first_missing(void);
int second_missing(void);
extern int missing_data;

int run(void) { return missing_data + first_missing() + second_missing(); }
int functions(void) { return first_missing() + second_missing(); }
