/* work: the peers of the workloads, both sides. Every stream's octet i is
 * i modulo 251 and is checked where it is read, so a wrong, lost or doubled
 * octet shows.
 *
 *   work serve ADDR BASE           BASE+0 sink   reads "N\n" and N octets, answers "COUNT WRONG\n"
 *                                  BASE+1 source reads "N\n", gives N octets, ends
 *                                  BASE+2 echo
 *                                  BASE+3 udp echo
 *                                  BASE+4 slow sink: reads nothing for 2 s, then as sink
 *                                  BASE+5 half: reads to the end, then gives 100,000 octets
 *                                  BASE+6 rude: takes the connection, reads a little, resets
 *   work up|down ADDR PORT N [SECS]
 *   work conns ADDR PORT COUNT SECS SIZE [PARALLEL]
 *   work rr|udprr ADDR PORT COUNT SECS SIZE
 *   work flows ADDR PORT FLOWS N SECS     all are connected before any asks
 *   work slowread ADDR PORT N DELAYMS     asks a source, reads nothing for a while
 *   work bidir ADDR PORT N SECS           echo, writing and reading at once
 *   work half ADDR PORT | refused ADDR PORT | rude ADDR PORT
 *   work sameport ADDR PORT COUNT OWNPORT rst|fin   a source, always from one port of ours
 *   work dns ADDR PORT NAME COUNT SECS WINDOW
 * Every client prints one line of JSON with "ok" and ends with 0 or 1.
 */
#define _GNU_SOURCE
#include <arpa/inet.h>
#include <errno.h>
#include <netinet/tcp.h>
#include <poll.h>
#include <pthread.h>
#include <signal.h>
#include <stdatomic.h>
#include <stdint.h>
#include <stdio.h>
#include <stdlib.h>
#include <string.h>
#include <sys/resource.h>
#include <sys/socket.h>
#include <sys/time.h>
#include <time.h>
#include <unistd.h>

#define CH (251 * 512)
static uint8_t pat[CH + 251];
static double now(void) { struct timespec t; clock_gettime(CLOCK_MONOTONIC, &t); return t.tv_sec + t.tv_nsec * 1e-9; }
static struct sockaddr_in at(const char *a, int p) { struct sockaddr_in s = { .sin_family = AF_INET, .sin_port = htons(p) }; inet_pton(AF_INET, a, &s.sin_addr); return s; }
static void limit(int fd, double secs) { struct timeval tv = { (long)secs, (long)((secs - (long)secs) * 1e6) }; setsockopt(fd, SOL_SOCKET, SO_RCVTIMEO, &tv, sizeof tv); setsockopt(fd, SOL_SOCKET, SO_SNDTIMEO, &tv, sizeof tv); }
static int dial(const char *a, int p, double secs) {
  int fd = socket(AF_INET, SOCK_STREAM | SOCK_CLOEXEC, 0); if (fd < 0) return -1;
  limit(fd, secs); int one = 1; setsockopt(fd, IPPROTO_TCP, TCP_NODELAY, &one, sizeof one);
  struct sockaddr_in s = at(a, p);
  if (connect(fd, (void *)&s, sizeof s)) { int e = errno; close(fd); errno = e; return -1; }
  return fd;
}
static int put(int fd, const void *b, size_t n) { const uint8_t *p = b; while (n) { ssize_t w = send(fd, p, n, MSG_NOSIGNAL); if (w < 0) { if (errno == EINTR) continue; return -1; } p += w; n -= w; } return 0; }
static int get(int fd, void *b, size_t n) { uint8_t *p = b; while (n) { ssize_t r = recv(fd, p, n, 0); if (r < 0 && errno == EINTR) continue; if (r <= 0) return -1; p += r; n -= r; } return 0; }
static int put_pattern(int fd, uint64_t n) { uint64_t i = 0; while (i < n) { size_t o = i % 251, k = CH - 251; if (k > n - i) k = n - i; if (put(fd, pat + o, k)) return -1; i += k; } return 0; }
static uint64_t wrong_in(const uint8_t *b, size_t n, uint64_t place) { size_t o = place % 251; if (!memcmp(b, pat + o, n)) return 0; uint64_t w = 0; for (size_t i = 0; i < n; i++) w += b[i] != pat[o + i]; return w; }
/* reads to the end, or until `most` octets came */
static int get_pattern(int fd, uint64_t most, uint64_t *count, uint64_t *wrong) {
  uint8_t *b = malloc(CH); int r = 0; *count = *wrong = 0;
  while (*count < most) { size_t k = CH - 251; if (k > most - *count) k = most - *count; ssize_t n = recv(fd, b, k, 0);
    if (n < 0) { if (errno == EINTR) continue; r = -1; break; }
    if (n == 0) break;
    *wrong += wrong_in(b, n, *count); *count += n; }
  free(b); return r;
}

static int line(int fd, char *b, int most) { int k = 0; while (k < most && recv(fd, b + k, 1, 0) == 1 && b[k] != '\n') k++; b[k] = 0; return k; }

/* ---- servers ---- */
struct port { int fd, kind; };
struct conn { int fd, kind; };
static void *serve_conn(void *v) {
  struct conn c = *(struct conn *)v; free(v); uint64_t n, w; char b[65536]; int one = 1;
  limit(c.fd, 120); setsockopt(c.fd, IPPROTO_TCP, TCP_NODELAY, &one, sizeof one);
  if (c.kind == 4) { sleep(2); }
  if (c.kind == 0 || c.kind == 4) { int k = line(c.fd, b, 30); if (k) { get_pattern(c.fd, strtoull(b, 0, 10), &n, &w); k = sprintf(b, "%lu %lu\n", n, w); put(c.fd, b, k); recv(c.fd, b, 1, 0); } }
  else if (c.kind == 1) { line(c.fd, b, 30); put_pattern(c.fd, strtoull(b, 0, 10)); shutdown(c.fd, SHUT_WR); while (recv(c.fd, b, sizeof b, 0) > 0) {} }
  else if (c.kind == 2) { ssize_t k; while ((k = recv(c.fd, b, sizeof b, 0)) > 0) if (put(c.fd, b, k)) break; }
  else if (c.kind == 5) { get_pattern(c.fd, UINT64_MAX, &n, &w); usleep(200000); put_pattern(c.fd, 100000); }
  else if (c.kind == 6) { recv(c.fd, b, 10, 0); struct linger l = { 1, 0 }; setsockopt(c.fd, SOL_SOCKET, SO_LINGER, &l, sizeof l); }
  close(c.fd); return 0;
}
static void *serve_port(void *v) { struct port *p = v; pthread_attr_t a; pthread_attr_init(&a); pthread_attr_setstacksize(&a, 256 << 10); pthread_attr_setdetachstate(&a, PTHREAD_CREATE_DETACHED);
  for (;;) { int fd = accept4(p->fd, 0, 0, SOCK_CLOEXEC); if (fd < 0) { if (errno == EINTR || errno == ECONNABORTED) continue; usleep(1000); continue; }
    struct conn *c = malloc(sizeof *c); *c = (struct conn){ fd, p->kind }; pthread_t t; if (pthread_create(&t, &a, serve_conn, c)) { close(fd); free(c); } }
  return 0;
}
static void *serve_udp(void *v) { int fd = *(int *)v; uint8_t b[65536]; for (;;) { struct sockaddr_in s; socklen_t l = sizeof s; ssize_t n = recvfrom(fd, b, sizeof b, 0, (void *)&s, &l); if (n >= 0) sendto(fd, b, n, 0, (void *)&s, l); } return 0; }
static int serve(const char *a, int base) {
  static struct port ps[7]; static int u; pthread_t t; alarm(7200);
  for (int k = 0; k < 7; k++) { struct sockaddr_in s = at(a, base + k); int one = 1;
    int fd = socket(AF_INET, (k == 3 ? SOCK_DGRAM : SOCK_STREAM) | SOCK_CLOEXEC, 0); setsockopt(fd, SOL_SOCKET, SO_REUSEADDR, &one, sizeof one);
    if (bind(fd, (void *)&s, sizeof s) || (k != 3 && listen(fd, 1024))) { perror("work serve"); return 1; }
    if (k == 3) { u = fd; pthread_create(&t, 0, serve_udp, &u); } else { ps[k] = (struct port){ fd, k }; pthread_create(&t, 0, serve_port, &ps[k]); } }
  printf("up\n"); fflush(stdout); for (;;) pause();
}

/* ---- clients ---- */
static int cmp(const void *a, const void *b) { double x = *(double *)a, y = *(double *)b; return x < y ? -1 : x > y; }
static void lat(double *t, size_t n, char *o) { if (!n) { strcpy(o, "\"p50_us\":null,\"p99_us\":null"); return; } qsort(t, n, sizeof *t, cmp); sprintf(o, "\"p50_us\":%.1f,\"p99_us\":%.1f", t[n / 2] * 1e6, t[(size_t)(n * 0.99)] * 1e6); }

static const char *A; static int P;
struct many { size_t count, size; double secs; double *t; size_t done, bad; };
static void *conns_thread(void *v) { struct many *m = v; double end = now() + m->secs; uint8_t *b = malloc(m->size);
  for (size_t i = 0; i < m->count && now() < end; i++) { double s = now(); int fd = dial(A, P, 10);
    if (fd < 0 || put(fd, pat, m->size) || get(fd, b, m->size) || memcmp(b, pat, m->size)) { m->bad++; if (fd >= 0) close(fd); if (m->bad > 3) break; continue; }
    close(fd); m->t[m->done++] = now() - s; }
  free(b); return 0; }
static pthread_barrier_t bar;
struct flow { uint64_t n; double secs; int ok, connected, err; };
static void *flow_thread(void *v) { struct flow *f = v; int fd = dial(A, P, f->secs); f->connected = fd >= 0; if (fd < 0) f->err = errno; pthread_barrier_wait(&bar); if (fd < 0) return 0;
  char q[32]; int k = sprintf(q, "%lu\n", f->n); uint64_t c = 0, w = 0; if (!put(fd, q, k)) get_pattern(fd, UINT64_MAX, &c, &w); f->ok = c == f->n && !w; if (!f->ok) f->err = errno; close(fd); return 0; }
static void *flow_up_thread(void *v) { struct flow *f = v; int fd = dial(A, P, f->secs); f->connected = fd >= 0; if (fd < 0) f->err = errno; pthread_barrier_wait(&bar); if (fd < 0) return 0;
  char q[64]; int k = sprintf(q, "%lu\n", f->n); unsigned long c = 0, w = 1; if (!put(fd, q, k) && !put_pattern(fd, f->n)) { line(fd, q, 60); if (sscanf(q, "%lu %lu", &c, &w) != 2) w = 1; } f->ok = c == f->n && !w; if (!f->ok) f->err = errno; close(fd); return 0; }
struct wr { int fd; uint64_t n; int bad; };
static void *writer(void *v) { struct wr *w = v; w->bad = put_pattern(w->fd, w->n) != 0; return 0; }

int main(int argc, char **argv) {
  for (int i = 0; i < CH + 251; i++) pat[i] = i % 251;
  signal(SIGPIPE, SIG_IGN);
  struct rlimit rl = { 19000, 19000 }; setrlimit(RLIMIT_NOFILE, &rl);
  if (argc < 4) { fprintf(stderr, "work: words\n"); return 2; }
  const char *c = argv[1]; A = argv[2]; P = atoi(argv[3]);
#define N(k, d) (argc > (k) ? atof(argv[k]) : (d))
  char l[100]; double t0 = now();
  if (!strcmp(c, "serve")) return serve(A, P);
  alarm(300);
  if (!strcmp(c, "up")) { uint64_t n = N(4, 1e6); int fd = dial(A, P, N(5, 30)); t0 = now(); unsigned long got = 0, wrong = 0; char b[64] = ""; int k = sprintf(b, "%lu\n", n); int bad = fd < 0 || put(fd, b, k) || put_pattern(fd, n);
    if (!bad) { line(fd, b, 60); bad = sscanf(b, "%lu %lu", &got, &wrong) != 2; }
    double s = now() - t0; int ok = !bad && got == n && !wrong; printf("{\"ok\":%s,\"octets\":%lu,\"wrong\":%lu,\"secs\":%.4f,\"mb_s\":%.2f,\"errno\":%d}\n", ok ? "true" : "false", got, wrong, s, n / s / 1e6, ok ? 0 : errno); return !ok; }
  if (!strcmp(c, "down") || !strcmp(c, "slowread")) { uint64_t n = N(4, 1e6), got = 0, wrong = 0; int slow = c[0] == 's'; int fd = dial(A, P, slow ? 60 : N(5, 30)); t0 = now(); char q[32]; int k = sprintf(q, "%lu\n", n);
    int bad = fd < 0 || put(fd, q, k); if (!bad && slow) usleep(N(5, 2000) * 1000); if (!bad) bad = get_pattern(fd, UINT64_MAX, &got, &wrong); double s = now() - t0; int ok = !bad && got == n && !wrong;
    printf("{\"ok\":%s,\"octets\":%lu,\"wrong\":%lu,\"secs\":%.4f,\"mb_s\":%.2f,\"errno\":%d}\n", ok ? "true" : "false", got, wrong, s, n / s / 1e6, ok ? 0 : errno); return !ok; }
  if (!strcmp(c, "conns")) { size_t count = N(4, 100), size = N(6, 64), par = N(7, 1); double secs = N(5, 10); struct many *m = calloc(par, sizeof *m); pthread_t *t = calloc(par, sizeof *t); double *all = calloc(count + par, sizeof *all); size_t done = 0, bad = 0;
    for (size_t i = 0; i < par; i++) { m[i] = (struct many){ count / par, size, secs, calloc(count / par + 1, sizeof(double)), 0, 0 }; pthread_create(&t[i], 0, conns_thread, &m[i]); }
    for (size_t i = 0; i < par; i++) { pthread_join(t[i], 0); memcpy(all + done, m[i].t, m[i].done * sizeof(double)); done += m[i].done; bad += m[i].bad; }
    double s = now() - t0; lat(all, done, l); printf("{\"ok\":%s,\"done\":%zu,\"bad\":%zu,\"secs\":%.4f,\"per_s\":%.1f,%s}\n", done && !bad ? "true" : "false", done, bad, s, done / s, l); return !(done && !bad); }
  if (!strcmp(c, "rr") || !strcmp(c, "udprr")) { int udp = c[0] == 'u'; size_t count = N(4, 1000), size = N(6, 64), done = 0, bad = 0; double secs = N(5, 10); double *t = calloc(count, sizeof *t); uint8_t b[65536]; int fd;
    if (udp) { struct sockaddr_in s = at(A, P); fd = socket(AF_INET, SOCK_DGRAM, 0); limit(fd, 1); connect(fd, (void *)&s, sizeof s); } else fd = dial(A, P, 10);
    t0 = now(); uint8_t *o = malloc(size + 8); memcpy(o, pat, size);
    for (size_t i = 0; fd >= 0 && i < count && now() - t0 < secs && bad < 20; i++) { double s = now(); uint32_t tag = i; if (size >= 4) memcpy(o, &tag, 4); int r;
      if (udp) { send(fd, o, size, 0); do r = recv(fd, b, sizeof b, 0); while (r == (int)size && size >= 4 && memcmp(b, o, 4) && now() - s < 1); r = r != (int)size || memcmp(b, o, size); }
      else { r = put(fd, o, size) || get(fd, b, size) || memcmp(b, o, size); if (r) { bad++; break; } }
      if (r) bad++; else t[done++] = now() - s; }
    double s = now() - t0; lat(t, done, l); int ok = fd >= 0 && done && (udp ? bad * 100 <= count : !bad); printf("{\"ok\":%s,\"done\":%zu,\"bad\":%zu,\"secs\":%.4f,\"per_s\":%.1f,%s}\n", ok ? "true" : "false", done, bad, s, done / s, l); return !ok; }
  if (!strcmp(c, "flows") || !strcmp(c, "flowsup")) { int isup = c[5] == 'u'; int k = N(4, 40); uint64_t n = N(5, 10000); double secs = N(6, 30); struct flow *f = calloc(k, sizeof *f); pthread_t *t = calloc(k, sizeof *t); pthread_attr_t a; pthread_attr_init(&a); pthread_attr_setstacksize(&a, 256 << 10); pthread_barrier_init(&bar, 0, k + 1);
    for (int i = 0; i < k; i++) { f[i].n = n; f[i].secs = secs; pthread_create(&t[i], &a, isup ? flow_up_thread : flow_thread, &f[i]); }
    pthread_barrier_wait(&bar); double tc = now() - t0; int ok = 0, con = 0, err = 0; for (int i = 0; i < k; i++) { pthread_join(t[i], 0); ok += f[i].ok; con += f[i].connected; if (f[i].err) err = f[i].err; } double s = now() - t0 - tc;
    printf("{\"ok\":%s,\"flows\":%d,\"connected\":%d,\"whole\":%d,\"connect_secs\":%.4f,\"secs\":%.4f,\"mb_s\":%.2f,\"errno\":%d}\n", ok == k ? "true" : "false", k, con, ok, tc, s, ok * (double)n / s / 1e6, err); return ok != k; }
  if (!strcmp(c, "hold")) { int n = N(4, 1), con = 0; size_t size = N(5, 64); int *fd = calloc(n + 1, sizeof *fd); uint8_t *b = malloc(size + 1);
    for (int i = 0; i < n; i++) { fd[i] = dial(A, P, 10); if (fd[i] < 0 || put(fd[i], pat, size) || get(fd[i], b, size)) break; con++; }
    printf("{\"ok\":%s,\"connected\":%d,\"errno\":%d,\"secs\":%.4f}\n", con == n ? "true" : "false", con, con == n ? 0 : errno, now() - t0); fflush(stdout); for (;;) pause(); }
  if (!strcmp(c, "bidir")) { uint64_t n = N(4, 1e6), got = 0, wrong = 0; int fd = dial(A, P, N(5, 30)); t0 = now(); struct wr w = { fd, n, 1 }; pthread_t t; if (fd >= 0) { pthread_create(&t, 0, writer, &w); if (get_pattern(fd, n, &got, &wrong)) shutdown(fd, SHUT_RDWR); pthread_join(t, 0); }
    double s = now() - t0; int ok = !w.bad && got == n && !wrong; printf("{\"ok\":%s,\"octets\":%lu,\"wrong\":%lu,\"secs\":%.4f,\"mb_s\":%.2f}\n", ok ? "true" : "false", got, wrong, s, n / s / 1e6); return !ok; }
  if (!strcmp(c, "half")) { uint64_t got = 0, wrong = 0; int fd = dial(A, P, 10); int bad = fd < 0 || put_pattern(fd, 5000); if (!bad) { shutdown(fd, SHUT_WR); get_pattern(fd, UINT64_MAX, &got, &wrong); } int ok = got == 100000 && !wrong;
    printf("{\"ok\":%s,\"octets\":%lu,\"wrong\":%lu,\"secs\":%.4f}\n", ok ? "true" : "false", got, wrong, now() - t0); return !ok; }
  if (!strcmp(c, "refused")) { int fd = dial(A, P, 10); int e = errno; int ok = fd < 0 && e == ECONNREFUSED; printf("{\"ok\":%s,\"errno\":%d,\"error\":\"%s\",\"secs\":%.4f}\n", ok ? "true" : "false", fd < 0 ? e : 0, fd < 0 ? strerror(e) : "connected", now() - t0); return !ok; }
  if (!strcmp(c, "rude")) { int fd = dial(A, P, 10); int e = 0; char b[8]; if (fd >= 0) { put(fd, pat, 64); ssize_t n = recv(fd, b, sizeof b, 0); e = n < 0 ? errno : 0; } int ok = fd >= 0 && e == ECONNRESET; printf("{\"ok\":%s,\"errno\":%d,\"secs\":%.4f}\n", ok ? "true" : "false", e, now() - t0); return !ok; }
  if (!strcmp(c, "sameport")) { int count = N(4, 20), own = N(5, 41000), rst = !strcmp(argc > 6 ? argv[6] : "fin", "rst"), done = 0, e = 0; double worst = 0;
    for (int i = 0; i < count; i++) { double s = now(); int fd = socket(AF_INET, SOCK_STREAM | SOCK_CLOEXEC, 0), one = 1; limit(fd, 8); setsockopt(fd, SOL_SOCKET, SO_REUSEADDR, &one, sizeof one);
      struct sockaddr_in me = { .sin_family = AF_INET, .sin_port = htons(own) }, to = at(A, P); uint64_t got = 0, wrong = 0;
      for (int k = 0; k < 50 && (e = bind(fd, (void *)&me, sizeof me) ? errno : 0) == EADDRINUSE; k++) usleep(10000);
      for (int k = 0; k < 50 && !e; k++) { if (!connect(fd, (void *)&to, sizeof to)) break; if (errno != EADDRNOTAVAIL || k == 49) e = errno; else usleep(10000); }   /* the last one may still wait for its last ACK */
      if (e) { close(fd); break; }
      if (put(fd, "1000\n", 5) || get_pattern(fd, rst ? 1000 : UINT64_MAX, &got, &wrong) || got != 1000 || wrong) { e = errno; close(fd); break; }
      if (rst) { struct linger l = { 1, 0 }; setsockopt(fd, SOL_SOCKET, SO_LINGER, &l, sizeof l); }
      close(fd); if (now() - s > worst) worst = now() - s; done++; usleep(2000); }
    printf("{\"ok\":%s,\"done\":%d,\"worst_s\":%.4f,\"errno\":%d}\n", done == count ? "true" : "false", done, worst, e); return done != count; }
  if (!strcmp(c, "dns")) { const char *name = argv[4]; size_t count = N(5, 1000), win = N(7, 1), sent = 0, done = 0, bad = 0; double secs = N(6, 10); double *t = calloc(count, sizeof *t), *st = calloc(count, sizeof *st); struct sockaddr_in s = at(A, P); int fd = socket(AF_INET, SOCK_DGRAM, 0); limit(fd, 2); connect(fd, (void *)&s, sizeof s);
    uint8_t q[300] = { 0, 0, 1, 0, 0, 1 }, b[2000]; size_t n = 12; for (const char *p = name; *p;) { const char *d = strchrnul(p, '.'); q[n++] = d - p; memcpy(q + n, p, d - p); n += d - p; p = *d ? d + 1 : d; } q[n++] = 0; q[n++] = 0; q[n++] = 1; q[n++] = 0; q[n++] = 1;
    t0 = now(); while (done + bad < count && now() - t0 < secs && bad < 50) {
      while (sent < count && sent - done - bad < win) { q[0] = sent >> 8; q[1] = sent; st[sent++] = now(); send(fd, q, n, 0); }
      ssize_t r = recv(fd, b, sizeof b, 0); if (r < 12) { bad += sent - done - bad; continue; }
      size_t id = b[0] << 8 | b[1]; if ((b[3] & 15) || !(b[2] & 128) || !(b[6] << 8 | b[7])) { bad++; continue; } if (id < sent) t[done++] = now() - st[id]; }
    double d = now() - t0; lat(t, done, l); int ok = done && bad * 100 <= count; printf("{\"ok\":%s,\"done\":%zu,\"bad\":%zu,\"secs\":%.4f,\"per_s\":%.1f,%s}\n", ok ? "true" : "false", done, bad, d, done / d, l); return !ok; }
  if (!strcmp(c, "udpwin")) { size_t count = N(4, 1000), size = N(6, 64), win = N(7, 32), ports = N(8, 1), sent = 0, done = 0, lost = 0; double secs = N(5, 10); double *t = calloc(count, sizeof *t), *st = calloc(count, sizeof *st); struct sockaddr_in s = at(A, P); struct pollfd *f = calloc(ports, sizeof *f); uint8_t *o = malloc(size + 8), b[65536]; char *gone = calloc(count, 1); memcpy(o, pat, size);
    for (size_t i = 0; i < ports; i++) { int fd = socket(AF_INET, SOCK_DGRAM | SOCK_NONBLOCK, 0), big = 1 << 20; setsockopt(fd, SOL_SOCKET, SO_RCVBUF, &big, sizeof big); connect(fd, (void *)&s, sizeof s); f[i] = (struct pollfd){ fd, POLLIN, 0 }; }
    t0 = now(); while (done + lost < count && now() - t0 < secs) {
      while (sent < count && sent - done - lost < win) { uint32_t tag = sent; memcpy(o, &tag, 4); st[sent] = now(); if (send(f[sent % ports].fd, o, size, 0) < 0 && errno == EAGAIN) break; sent++; }
      if (poll(f, ports, 200) <= 0) { for (size_t i = 0; i < sent; i++) if (!t[i] && !gone[i]) { gone[i] = 1; lost++; } continue; }
      for (size_t i = 0; i < ports; i++) if (f[i].revents) { ssize_t r; while ((r = recv(f[i].fd, b, sizeof b, 0)) > 0) { uint32_t tag; memcpy(&tag, b, 4); if (r != (ssize_t)size || tag >= sent || memcmp(b + 4, o + 4, size - 4)) { printf("{\"ok\":false,\"wrong\":1}\n"); return 1; } if (!t[tag]) { t[tag] = now() - st[tag]; if (gone[tag]) { gone[tag] = 0; lost--; } done++; } } } }
    double d = now() - t0; size_t k = 0; for (size_t i = 0; i < sent; i++) if (t[i]) t[k++] = t[i]; lat(t, k, l); int ok = done && lost * 100 <= count; printf("{\"ok\":%s,\"done\":%zu,\"lost\":%zu,\"secs\":%.4f,\"per_s\":%.1f,%s}\n", ok ? "true" : "false", done, lost, d, done / d, l); return !ok; }
  fprintf(stderr, "work: no workload %s\n", c); return 2;
}
