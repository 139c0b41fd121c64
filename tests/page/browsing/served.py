"""A web server for the page, which counts what is asked of it."""

import http.server
import threading


class Server:
    """Serves a page at `address`; `asked` has the path of each request."""

    def __init__(self, page):
        asked = self.asked = []

        class Handler(http.server.BaseHTTPRequestHandler):
            def do_GET(self):
                asked.append(self.path)
                is_page = self.path == "/iptsim.html"
                self.send_response(200 if is_page else 404)
                self.send_header("Content-Type", "text/html; charset=utf-8")
                self.end_headers()
                self.wfile.write(page if is_page else b"")

            do_POST = do_GET

            def log_message(self, *_):
                pass

        self.server = http.server.ThreadingHTTPServer(("127.0.0.1", 0), Handler)
        self.root = f"http://127.0.0.1:{self.server.server_address[1]}"
        self.address = f"{self.root}/iptsim.html"
        threading.Thread(target=self.server.serve_forever, daemon=True).start()

    def close(self):
        self.server.shutdown()
        self.server.server_close()


# Each way in which a page could send something. All have to fail, or be without effect: the value names those that have an answer.
SENDING = """
(async (root) => {
  const added = (tag, more, parent) => {
    const node = Object.assign(document.createElement(tag), more);
    parent.append(node);
    return node;
  };
  const passed = [], nodes = [];
  const ways = {
    image: () => void (new Image().src = root + "/image"),
    frame: () => void nodes.push(added("iframe", { src: root + "/frame" }, document.body)),
    script: () => void nodes.push(added("script", { src: root + "/script" }, document.body)),
    style: () => void nodes.push(added("link", { rel: "stylesheet", href: root + "/style" }, document.head)),
    form: () => {
      nodes.push(added("form", { action: root + "/form", method: "post", target: "none" }, document.body));
      nodes.at(-1).submit();
    },
    beacon: () => void navigator.sendBeacon(root + "/beacon", "text"),
    events: () => void new EventSource(root + "/events"),
    socket: () => void new WebSocket(root.replace("http", "ws") + "/socket"),
    worker: () => void new Worker(root + "/worker"),
    fetch: () => fetch(root + "/fetch").then(() => passed.push("fetch")),
    request: () => new Promise((done) => {
      const request = new XMLHttpRequest();
      request.onload = () => done(passed.push("request"));
      request.onerror = done;
      request.open("GET", root + "/request");
      request.send();
    }),
  };
  for (const way of Object.values(ways)) {
    try {
      await way();
    } catch {
      // Refused at once.
    }
  }
  await new Promise((done) => setTimeout(done, 300));
  for (const node of nodes) node.remove();
  return passed.join(" ");
})("%s")
"""
