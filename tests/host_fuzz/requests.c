/* Who asks for metrics and health: whatever comes, the answer is one of HTTP, as long as it says, and no fault of the host's. */
#include "fuzz.h"

#include "../../hosts/c/watch.c"

void tried(struct input *input) {
    static const char *const begun[] = { "HTTP/1.0 200 OK\r\n", "HTTP/1.0 404 Not Found\r\n", "HTTP/1.0 503 Service Unavailable\r\n" };
    static char answer[1 << 17];
    const struct watch watch = { .socket = -1, .node = "ph1", .log = "ph1.log" };
    int ends[2], place = 0;
    size_t size = 0;
    ssize_t count;
    expect(socketpair(AF_UNIX, SOCK_STREAM, 0, ends) == 0);
    expect(send(ends[1], input->at, input->size, MSG_NOSIGNAL | MSG_DONTWAIT) == (ssize_t)input->size && shutdown(ends[1], SHUT_WR) == 0);
    answer_one(&watch, ends[0]);
    close(ends[0]);
    while (size < sizeof answer - 1 && (count = recv(ends[1], answer + size, sizeof answer - 1 - size, 0)) > 0) size += (size_t)count;
    close(ends[1]);
    answer[size] = '\0';
    while (place < 3 && strncmp(answer, begun[place], strlen(begun[place])) != 0) place++;
    const char *length = strstr(answer, "\r\nContent-Length: "), *body = strstr(answer, "\r\n\r\n");
    expect(place < 3 && length != NULL && body != NULL && length < body);
    expect(strtoull(length + 18, NULL, 10) == size - (size_t)(body + 4 - answer));
    bool is_page = input->size > 12 && memcmp(input->at, "GET /metrics ", 13) == 0;
    expect(!is_page || place == 0);
}
