/* Functions of other libraries for the lattice `taint.q`: what OpenSSL reads, and the commands of SQLite, MySQL and PostgreSQL. Put it
   behind `taint.h`: `cqual-cc --prelude taint.h --prelude taint-libraries.h`.

   The shapes are those of OpenSSL 3.0, SQLite 3.40, MariaDB's client 10.11 and libpq 15, as Debian 12 has them. */

typedef unsigned long size_t;
typedef struct ssl_st SSL;
typedef struct bio_st BIO;
typedef struct sqlite3 sqlite3;
typedef struct sqlite3_stmt sqlite3_stmt;
typedef struct st_mysql MYSQL;
typedef struct pg_conn PGconn;
typedef struct pg_result PGresult;

int SSL_read(SSL *ssl, $tainted void *buf, int num);
int SSL_read_ex(SSL *ssl, $tainted void *buf, size_t num, size_t *readbytes);
int SSL_peek(SSL *ssl, $tainted void *buf, int num);
int BIO_read(BIO *b, $tainted void *data, int dlen);
int BIO_gets(BIO *bp, $tainted char *buf, int size);

int sqlite3_exec(sqlite3 *db, $untainted const char *sql, int (*callback)(void *, int, char **, char **), void *data, char **errmsg);
int sqlite3_prepare(sqlite3 *db, $untainted const char *sql, int length, sqlite3_stmt **statement, const char **tail);
int sqlite3_prepare_v2(sqlite3 *db, $untainted const char *sql, int length, sqlite3_stmt **statement, const char **tail);
int mysql_query(MYSQL *mysql, $untainted const char *q);
int mysql_real_query(MYSQL *mysql, $untainted const char *q, unsigned long length);
PGresult *PQexec(PGconn *conn, $untainted const char *query);
PGresult *PQprepare(PGconn *conn, const char *stmtName, $untainted const char *query, int nParams, const unsigned int *paramTypes);
int PQsendQuery(PGconn *conn, $untainted const char *query);
