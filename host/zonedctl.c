/* zonedctl [--control PATH] COMMAND: has the zoned at a control socket do something, and prints what it answers. */
#include <err.h>
#include <stdbool.h>
#include <stdio.h>
#include <string.h>
#include <sys/socket.h>
#include <sys/un.h>

int main(int count, char **words) {
    struct sockaddr_un at = {.sun_family = AF_UNIX};
    char line[1024] = "";
    if (count == 2 && strcmp(words[1], "--version") == 0)
        return puts("zonedctl " ZONED_VERSION) < 0;
    bool has_path = count > 2 && strcmp(words[1], "--control") == 0;
    const char *path = has_path ? words[2] : "/run/zoned/control";
    char **command = words + (has_path ? 3 : 1);
    count -= has_path ? 3 : 1;
    if (count < 1 || count > 2 || strlen(path) >= sizeof at.sun_path)
        errx(2,
             "usage: zonedctl [--control PATH] status|reload|zones|zonestatus ZONE|stats|querylog on|querylog off|stop");
    strcpy(at.sun_path, path);
    int fd = socket(AF_UNIX, SOCK_STREAM, 0);
    if (connect(fd, (struct sockaddr *)&at, sizeof at) != 0)
        err(2, "%s", path);
    dprintf(fd, "%s%s%s\n", command[0], count > 1 ? " " : "", count > 1 ? command[1] : "");
    FILE *zoned = fdopen(fd, "r");
    if (zoned == NULL || fgets(line, sizeof line, zoned) == NULL)
        errx(2, "%s: no answer", path);
    bool is_done = strcmp(line, "ok\n") == 0;
    while (fgets(line, sizeof line, zoned) != NULL)
        fputs(line, is_done ? stdout : stderr);
    return !is_done;
}
