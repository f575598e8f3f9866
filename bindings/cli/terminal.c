/* Asks for the password of scrypt_tool at a terminal, without echo. The program reads its standard
 * input by read_or_ask. This file is tested, not proved. */
#define _GNU_SOURCE
#include <errno.h>
#include <fcntl.h>
#include <poll.h>
#include <signal.h>
#include <string.h>
#include <termios.h>
#include <unistd.h>

/* Linux truncates a line from a terminal to LINE bytes; INPUT_FAILED is the exit status. */
enum { LINE = 4096, INPUT_FAILED = 4 };

static volatile sig_atomic_t caught; /* the last signal, or 0 */
static void note(int number) { caught = number; }

static void say(int fd, const char *text) {
  if (write(fd, text, strlen(text)) < 0) return; /* the exit status reports it too */
}

/* Replaces a handler by another one, for every signal that can end or stop the program: signals that
 * are ignored stay so, and four are by default. */
static void handle_by(void (*from)(int), void (*to)(int)) {
  for (int number = 1; number < NSIG; number++) {
    struct sigaction action = {.sa_handler = to}, old;
    if (number == SIGCHLD || number == SIGCONT || number == SIGURG || number == SIGWINCH) continue;
    if (sigaction(number, NULL, &old) == 0 && old.sa_handler == from) (void)sigaction(number, &action, NULL);
  }
}

/* Reads a line, without its newline, and returns its length, or -1. Signals arrive while it waits, as
 * this mask lets them, and not between the wait and the read. */
static ssize_t read_line(int fd, char line[LINE], const sigset_t *mask) {
  struct pollfd input = {.fd = fd, .events = POLLIN};
  ssize_t len = 0, more = 1;
  while (more > 0 && len < LINE && (len == 0 || line[len - 1] != '\n')) {
    if (caught || ppoll(&input, 1, NULL, mask) < 0) return -1;
    more = read(fd, line + len, (size_t)(LINE - len));
    if (more > 0) len += more;
  }
  if (len == LINE) say(fd, "\nThe password may have been cut.");
  if (more < 0 || len == LINE) return -1;
  return len > 0 && line[len - 1] == '\n' ? len - 1 : len;
}

/* Asks without echo. A signal that comes meanwhile is noted, and the echo is on again when this
 * returns. SIGTTOU, which the terminal sends to a program in the background, is not blocked. */
static ssize_t ask_hidden(int fd, const char *prompt, char line[LINE]) {
  struct termios shown, hidden;
  sigset_t all, before;
  ssize_t len = -1;
  caught = 0;
  if (tcgetattr(fd, &shown) != 0) return -1;
  hidden = shown;
  hidden.c_lflag = (hidden.c_lflag & ~(tcflag_t)(ECHO | ECHONL)) | ICANON;
  hidden.c_iflag |= ICRNL;
  (void)sigfillset(&all);
  (void)sigdelset(&all, SIGTTOU);
  (void)sigprocmask(SIG_SETMASK, &all, &before);
  handle_by(SIG_DFL, note);
  if (tcsetattr(fd, TCSAFLUSH, &hidden) == 0) {
    say(fd, prompt);
    len = read_line(fd, line, &before);
    (void)sigaddset(&all, SIGTTOU);
    (void)sigprocmask(SIG_SETMASK, &all, NULL);
    (void)tcsetattr(fd, TCSAFLUSH, &shown);
    say(fd, "\n");
  }
  handle_by(note, SIG_DFL);
  (void)sigprocmask(SIG_SETMASK, &before, NULL);
  return len;
}

/* Asks, and lets a signal act that came meanwhile. If the program continues after that, it asks again.
 * An empty line is rejected as the end of the input is; an empty password can come from a pipe. */
static ssize_t line_of(int fd, const char *prompt, char line[LINE]) {
  ssize_t len;
  while ((len = ask_hidden(fd, prompt, line)) < 0 && caught) (void)raise(caught);
  if (len > 0) return len;
  errno = EIO; /* not EINTR, after which a reader may try again */
  return -1;
}

static ssize_t ask(char line[LINE], int is_new) {
  char again[LINE];
  int fd = open("/dev/tty", O_RDWR | O_CLOEXEC | O_NOCTTY);
  ssize_t len = fd < 0 ? -1 : line_of(fd, "Password: ", line);
  if (len > 0 && is_new) {
    ssize_t len_again = line_of(fd, "The same again: ", again);
    if (len_again > 0 && (len_again != len || memcmp(line, again, (size_t)len) != 0)) {
      say(fd, "The passwords differ.\n"); /* the program would print that its input failed */
      _exit(INPUT_FAILED);
    }
    explicit_bzero(again, sizeof again);
    len = len_again;
  }
  if (fd >= 0) (void)close(fd);
  return len;
}

/* Reads from the standard input as read does. At a terminal the first call asks for the password,
 * twice if it is a new one, and later calls return what is left of it. */
ssize_t read_or_ask(void *buffer, size_t len, int is_new) {
  static char line[LINE];
  static ssize_t at, rest = -2; /* rest of the line; -2 before asking for it, -1 if that failed */
  if (rest == -2 && !isatty(STDIN_FILENO)) return read(STDIN_FILENO, buffer, len);
  if (rest == -2) rest = ask(line, is_new);
  if (rest < 0) return -1;
  if (len > (size_t)rest) len = (size_t)rest;
  memcpy(buffer, line + at, len);
  explicit_bzero(line + at, len);
  at += (ssize_t)len;
  rest -= (ssize_t)len;
  return (ssize_t)len;
}
