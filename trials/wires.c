/* Network namespaces whose packets this process carries, late or with losses, as netem of the kernel does, which few kernels
   have.

       wires COUNT MTU

   makes COUNT namespaces. Number g, from 0 on, has the address 10.77.0.(g + 1) on a device of its own, and a process that
   sleeps there: one line has the numbers of these processes. Each line of the input has three numbers, which hold from then on:
   by how many microseconds a packet is late, by how many more at most, and how many of a million packets are lost. Packets from
   one to another stay in their order. At the end of the input all ends. It wants the rights of root, or those of root of a user
   namespace. */
#define _GNU_SOURCE
#include <arpa/inet.h>
#include <fcntl.h>
#include <linux/if_tun.h>
#include <net/if.h>
#include <poll.h>
#include <sched.h>
#include <signal.h>
#include <stdint.h>
#include <stdio.h>
#include <stdlib.h>
#include <string.h>
#include <sys/ioctl.h>
#include <sys/prctl.h>
#include <time.h>
#include <unistd.h>

enum { MOST = 32, LONGEST = 65536, MOST_WAITING = 1 << 16, AT_ONCE = 64 };

struct packet {
    int64_t due;
    uint64_t place;
    int to, bytes;
    uint8_t *data;
};

static int count, devices[MOST];
static int64_t last[MOST][MOST];
static struct packet waiting[MOST_WAITING];
static int waits;
static uint64_t places;
static long late, later, lost;

static int64_t now(void) {
    struct timespec time;
    clock_gettime(CLOCK_MONOTONIC, &time);
    return (int64_t)time.tv_sec * 1000000 + time.tv_nsec / 1000;
}

static void fail(const char *what) {
    perror(what);
    exit(1);
}

/* A namespace with a device, in which a process sleeps. This process is in it until the next is made. */
static void make(int number, const char *mtu) {
    struct ifreq device = {.ifr_name = "wire", .ifr_flags = IFF_TUN | IFF_NO_PI};
    char setup[256];
    if (unshare(CLONE_NEWNET) != 0) fail("unshare");
    devices[number] = open("/dev/net/tun", O_RDWR | O_NONBLOCK | O_CLOEXEC);
    if (devices[number] < 0) fail("/dev/net/tun");
    if (ioctl(devices[number], TUNSETIFF, &device) != 0) fail("TUNSETIFF");
    const char *words = "ip link set lo up && ip addr add 10.77.0.%d/24 dev wire && ip link set wire mtu %.8s txqueuelen 10000 up";
    snprintf(setup, sizeof setup, words, number + 1, mtu);
    if (system(setup) != 0) exit(1);
    pid_t sleeper = fork();
    if (sleeper < 0) fail("fork");
    if (sleeper > 0) {
        printf("%d ", (int)sleeper);
        return;
    }
    prctl(PR_SET_PDEATHSIG, SIGKILL);
    close(0);
    close(1);
    for (;;) pause();
}

static int is_before(const struct packet *a, const struct packet *b) {
    return a->due < b->due || (a->due == b->due && a->place < b->place);
}

/* Puts a packet to its place in the heap of those that wait. */
static void put(struct packet packet) {
    int at = waits++;
    for (; at > 0 && is_before(&packet, &waiting[(at - 1) / 2]); at = (at - 1) / 2) waiting[at] = waiting[(at - 1) / 2];
    waiting[at] = packet;
}

/* Takes the packet that is due first. */
static struct packet take(void) {
    struct packet first = waiting[0], end = waiting[--waits];
    int at = 0;
    for (int below = 1; below < waits; at = below, below = 2 * at + 1) {
        if (below + 1 < waits && is_before(&waiting[below + 1], &waiting[below])) below++;
        if (!is_before(&waiting[below], &end)) break;
        waiting[at] = waiting[below];
    }
    waiting[at] = end;
    return first;
}

/* Takes what has come from a device. */
static void read_from(int from) {
    static uint8_t room[LONGEST];
    for (int taken = 0; taken < AT_ONCE; taken++) {
        ssize_t bytes = read(devices[from], room, sizeof room);
        if (bytes <= 0) return;
        /* An IPv4 packet to one of the namespaces; its receiver is the last byte of the address. */
        int to = bytes < 20 || room[0] >> 4 != 4 ? -1 : room[19] - 1;
        if (to < 0 || to >= count || random() % 1000000 < lost || waits == MOST_WAITING) continue;
        int64_t due = now() + late + (later > 0 ? random() % later : 0);
        if (due < last[from][to]) due = last[from][to];
        last[from][to] = due;
        uint8_t *data = malloc((size_t)bytes);
        if (data == NULL) fail("malloc");
        memcpy(data, room, (size_t)bytes);
        put((struct packet){.due = due, .place = places++, .to = to, .bytes = (int)bytes, .data = data});
    }
}

/* Writes what is due. A packet that the device does not take is lost. */
static void write_due(void) {
    while (waits > 0 && waiting[0].due <= now()) {
        struct packet packet = take();
        ssize_t written = write(devices[packet.to], packet.data, (size_t)packet.bytes);
        (void)written;
        free(packet.data);
    }
}

static void carry(void) {
    struct pollfd ends[MOST + 1] = {{.fd = 0, .events = POLLIN}};
    for (int number = 0; number < count; number++) ends[number + 1] = (struct pollfd){.fd = devices[number], .events = POLLIN};
    for (;;) {
        int64_t wait = waits > 0 ? waiting[0].due - now() : 1000000;
        if (wait < 0) wait = 0;
        struct timespec time = {.tv_sec = wait / 1000000, .tv_nsec = wait % 1000000 * 1000};
        if (ppoll(ends, (nfds_t)count + 1, &time, NULL) < 0) fail("ppoll");
        for (int number = 0; number < count; number++)
            if (ends[number + 1].revents) read_from(number);
        write_due();
        if (ends[0].revents) {
            char line[128];
            if (fgets(line, sizeof line, stdin) == NULL || sscanf(line, "%ld %ld %ld", &late, &later, &lost) != 3) return;
        }
    }
}

int main(int words, char **word) {
    count = words == 3 ? atoi(word[1]) : 0;
    if (count < 1 || count > MOST) {
        fputs("usage: wires COUNT MTU\n", stderr);
        return 2;
    }
    prctl(PR_SET_TIMERSLACK, 1000UL);
    setvbuf(stdin, NULL, _IONBF, 0);
    setvbuf(stdout, NULL, _IONBF, 0);
    for (int number = 0; number < count; number++) make(number, word[2]);
    puts("");
    carry();
    return 0;
}
