/* A variable and a string more, and the entry. */
int nine = 9;
int *value(void);
const char *whole(void);
const char *end(void);
int *zero(void);

int run(void) { return nine + *value() + *zero() + whole()[0] + end()[0] + "hello world"[nine]; }
