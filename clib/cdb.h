/* Constant databases: the calls of libcdb.
 *
 * A program that was built with tinycdb's header runs on this library: the structs have the same
 * sizes and the same members at the same offsets. cdb(3) describes each call.
 */
#ifndef TINYCDB_VERSION

/* The version of tinycdb whose calls these are. */
#define TINYCDB_VERSION 0.78

#ifdef __cplusplus
extern "C" {
#endif

/* A length or a place. */
typedef unsigned int cdbi_t;

/* An open database. Programs read it by the macros below. */
struct cdb {
  int cdb_fd;                        /* the descriptor that was passed to cdb_init */
  unsigned cdb_fsize;                /* the mapped bytes, less than 4 GiB */
  unsigned cdb_dend;                 /* where the records end; 0 says that they would end in the head */
  const unsigned char *cdb_mem;      /* the first mapped byte, or null after cdb_free */
  unsigned cdb_vpos, cdb_vlen;       /* the value that was found last: its place, its length */
  unsigned cdb_kpos, cdb_klen;       /* and its key */
};

#define CDB_STATIC_INIT { 0, 0, 0, 0, 0, 0, 0, 0 }

/* A search of all values of a key. Programs pass it, and leave its members alone. */
struct cdb_find {
  struct cdb *cdb_cdbp;              /* the database, or null if the search did not begin */
  unsigned cdb_hval;                 /* the hash of the key */
  const unsigned char *cdb_htp;      /* the next slot */
  const unsigned char *cdb_htab;     /* the first slot of the table */
  const unsigned char *cdb_htend;    /* the end of the table */
  unsigned cdb_httodo;               /* how many bytes of slots are left; 0 once the search has ended */
  const void *cdb_key;               /* the key, which the caller keeps */
  unsigned cdb_klen;                 /* how many bytes it has */
};

unsigned cdb_hash(const void *buf, unsigned len);
unsigned cdb_unpack(const unsigned char buf[4]);
void cdb_pack(unsigned num, unsigned char buf[4]);

int cdb_init(struct cdb *cdbp, int fd);
void cdb_free(struct cdb *cdbp);
#define cdb_fileno(cdbp) ((cdbp)->cdb_fd)

int cdb_find(struct cdb *cdbp, const void *key, unsigned klen);
int cdb_findinit(struct cdb_find *cdbfp, struct cdb *cdbp, const void *key, unsigned klen);
int cdb_findnext(struct cdb_find *cdbfp);

#define cdb_seqinit(cptr, cdbp) (*(cptr) = 2048)
int cdb_seqnext(unsigned *cptr, struct cdb *cdbp);

#define cdb_datapos(cdbp) ((cdbp)->cdb_vpos)
#define cdb_datalen(cdbp) ((cdbp)->cdb_vlen)
#define cdb_keypos(cdbp) ((cdbp)->cdb_kpos)
#define cdb_keylen(cdbp) ((cdbp)->cdb_klen)

const void *cdb_get(const struct cdb *cdbp, unsigned len, unsigned pos);
#define cdb_getdata(cdbp) cdb_get((cdbp), cdb_datalen(cdbp), cdb_datapos(cdbp))
#define cdb_getkey(cdbp) cdb_get((cdbp), cdb_keylen(cdbp), cdb_keypos(cdbp))

int cdb_read(const struct cdb *cdbp, void *buf, unsigned len, unsigned pos);
#define cdb_readdata(cdbp, buf) cdb_read((cdbp), (buf), cdb_datalen(cdbp), cdb_datapos(cdbp))
#define cdb_readkey(cdbp, buf) cdb_read((cdbp), (buf), cdb_keylen(cdbp), cdb_keypos(cdbp))

int cdb_seek(int fd, const void *key, unsigned klen, unsigned *dlenp);
int cdb_bread(int fd, void *buf, int len);

/* A database that is being made. Programs read its descriptor by cdb_fileno, and leave the other
 * members alone. */
struct cdb_make {
  int cdb_fd;                        /* the descriptor that was passed to cdb_make_start */
  unsigned cdb_dpos;                 /* 2048 */
  unsigned cdb_rcnt;                 /* 0 */
  unsigned char cdb_buf[4096];       /* records that are not handed on yet */
  unsigned char *cdb_bpos;           /* not used */
  struct cdb_rl *cdb_rec[256];       /* the handle of the maker, and zeros */
};

/* What a put does if its key is there. Some programs test these names by #ifdef. */
enum cdb_put_mode {
  CDB_PUT_ADD = 0,                   /* adds the record */
#define CDB_PUT_ADD CDB_PUT_ADD
  CDB_PUT_REPLACE = 1,               /* removes the records of the key, and adds the record */
#define CDB_PUT_REPLACE CDB_PUT_REPLACE
  CDB_PUT_INSERT = 2,                /* adds nothing */
#define CDB_PUT_INSERT CDB_PUT_INSERT
  CDB_PUT_WARN = 3,                  /* adds the record, and returns 1 */
#define CDB_PUT_WARN CDB_PUT_WARN
  CDB_PUT_REPLACE0 = 4,              /* as CDB_PUT_REPLACE */
#define CDB_PUT_REPLACE0 CDB_PUT_REPLACE0
  CDB_FIND = CDB_PUT_ADD,            /* only looks */
  CDB_FIND_REMOVE = CDB_PUT_REPLACE, /* removes the records of the key */
  CDB_FIND_FILL0 = CDB_PUT_REPLACE0  /* as CDB_FIND_REMOVE */
};

int cdb_make_start(struct cdb_make *cdbmp, int fd);
int cdb_make_add(struct cdb_make *cdbmp, const void *key, unsigned klen, const void *val,
                 unsigned vlen);
int cdb_make_exists(struct cdb_make *cdbmp, const void *key, unsigned klen);
int cdb_make_find(struct cdb_make *cdbmp, const void *key, unsigned klen, enum cdb_put_mode mode);
int cdb_make_put(struct cdb_make *cdbmp, const void *key, unsigned klen, const void *val,
                 unsigned vlen, enum cdb_put_mode mode);
int cdb_make_finish(struct cdb_make *cdbmp);
void cdb_make_abort(struct cdb_make *cdbmp);

#ifdef __cplusplus
}
#endif

#endif
