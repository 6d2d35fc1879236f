import json
from subprocess import PIPE, Popen

with Popen(["./revroute", "serve", "--alone", "--json"], stdin=PIPE, stdout=PIPE, text=True, bufsize=1) as service:

    def ask(*request):
        print(json.dumps(request), file=service.stdin)  # bufsize=1: each line goes out at once
        return json.loads(service.stdout.readline())

    ask("net", 5, 0, [(1, 0), (2, 0), (3, 1), (3, 2), (4, 3)])
    print(ask("cut", 1, 0)["changed"])  # [[3, 2], [1, 3]]
    print(ask("add", 0, 4)["nodes"])  # [0, 4, 3, 2, 0]
