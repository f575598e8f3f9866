from django.shortcuts import render
from django.utils.deprecation import MiddlewareMixin


class OverloadMiddleware(MiddlewareMixin):
    """Responds with 503 if a log-in is rejected, times out, or runs out of memory."""

    def process_exception(self, request, exception):
        if isinstance(exception, (TimeoutError, MemoryError)):
            context = {"title": "Too many log-ins", "message": "Please try again in a moment."}
            return render(request, "page.html", context, status=503)
