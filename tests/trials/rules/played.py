"""A desk whose moments are given: the real program over lines, asked as acd_client asks one over HTTP."""
import json

from acd_client import Answer, Client
from acd_service.rules.sending import attempted
from trial import Lines, Requests, compact


class Played:
    """`moment` is that of the next line. `sent` has the requests of the rules with their status; `away` are how many of the next attempts get no answer."""
    page = Client.page

    def __init__(self, program):
        self.lines, self.moment, self.sent, self.request = Lines(program, words=["--reads"]), 0, [], Requests()

    def say(self, text):
        status, _, body = self.lines.say(f"{int(self.moment)} {text}").partition(" ")
        return Answer(int(status), json.loads(body))

    def attempt(self, method, path):
        return self.say(f"{method} {path}")

    def send(self, request):
        answer = self.say(compact(request))
        self.sent.append((self.moment, request, answer.status))
        return answer

    def send_all(self, requests):
        return [attempted(self.send, one) for one in requests]

    def ask(self, service, **members):
        """A request of somebody else; its answer."""
        return self.say(compact(self.request(service, **members)))

    def plan(self, plan):
        for request in self.request.plan(plan):
            self.say(compact(request))

    def logs_on(self, agent, device, *groups, ready=True):
        self.say(compact(self.request.log_on(agent, device, *groups)))
        if ready:
            self.say(compact(self.request.state(agent)))

    def arrives(self, called="100", caller="0301234"):
        return self.ask("arriveCall", caller=caller, called=called).result["call"]

    def __enter__(self):
        return self

    def __exit__(self, *_):
        self.lines.kill()
        self.lines.errors.close()
