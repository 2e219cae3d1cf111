/* Reads messages as hexadecimal digits, a line each, and prints what libnl-idiag makes of them:
   words with the names of sslist-json(5). answers.py runs it. */
#include <arpa/inet.h>
#include <linux/netlink.h>
#include <netlink/addr.h>
#include <netlink/idiag/idiagnl.h>
#include <netlink/idiag/meminfo.h>
#include <netlink/idiag/msg.h>
#include <netlink/netlink.h>
#include <stdint.h>
#include <stdio.h>
#include <stdlib.h>
#include <string.h>

static void print_address(const char *name, struct nl_addr *address)
{
    char text[128] = "";
    if (address == NULL)
        return;
    nl_addr2str(address, text, sizeof text);
    printf(" %s=%s", name, text);
}

/* A value that a reply lacks is 0 or missing in libnl: it is printed only if it is not 0. */
static void print_number(const char *name, unsigned long number)
{
    if (number != 0)
        printf(" %s=%lu", name, number);
}

static void print_values(struct idiagnl_msg *it)
{
    struct idiagnl_meminfo *memory = idiagnl_msg_get_meminfo(it);
    struct tcp_info info = idiagnl_msg_get_tcpinfo(it);
    const char *name = idiagnl_msg_get_cong(it);
    printf("family=%u state=%u timer=%u retrans=%u sport=%u dport=%u if=%u expires=%u rqueue=%u"
           " wqueue=%u uid=%u inode=%u", idiagnl_msg_get_family(it), idiagnl_msg_get_state(it),
           idiagnl_msg_get_timer(it), idiagnl_msg_get_retrans(it), idiagnl_msg_get_sport(it),
           idiagnl_msg_get_dport(it), idiagnl_msg_get_ifindex(it), idiagnl_msg_get_expires(it),
           idiagnl_msg_get_rqueue(it), idiagnl_msg_get_wqueue(it), idiagnl_msg_get_uid(it),
           idiagnl_msg_get_inode(it));
    print_address("src", idiagnl_msg_get_src(it));
    print_address("dst", idiagnl_msg_get_dst(it));
    print_number("tos", idiagnl_msg_get_tos(it));
    print_number("tclass", idiagnl_msg_get_tclass(it));
    print_number("shutdown", idiagnl_msg_get_shutdown(it));
    if (name != NULL && *name != '\0')
        printf(" cong=%s", name);
    if (memory != NULL)
        printf(" meminfo.rmem=%u meminfo.wmem=%u", idiagnl_meminfo_get_rmem(memory),
               idiagnl_meminfo_get_wmem(memory));
    print_number("info.rto", info.tcpi_rto);
    print_number("info.snd_mss", info.tcpi_snd_mss);
    print_number("info.rtt", info.tcpi_rtt);
    print_number("info.total_retrans", info.tcpi_total_retrans);
}

int main(void)
{
    static char line[1 << 18];
    while (fgets(line, sizeof line, stdin) != NULL) {
        const size_t length = strcspn(line, "\n") / 2;
        uint8_t *bytes = calloc(1, length + 1);
        struct idiagnl_msg *found = NULL;
        int error;
        for (size_t at = 0; at < length; at++)
            sscanf(line + 2 * at, "%2hhx", &bytes[at]);
        error = idiagnl_msg_parse((struct nlmsghdr *)bytes, &found);
        if (error < 0 || found == NULL)
            printf("error=%d", error);
        else
            print_values(found);
        puts("");
        idiagnl_msg_put(found);
        free(bytes);
    }
    return 0;
}
