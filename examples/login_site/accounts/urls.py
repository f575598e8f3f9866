from django.contrib.auth import login, views
from django.contrib.auth.forms import UserCreationForm
from django.urls import path, reverse_lazy
from django.views.decorators.debug import sensitive_post_parameters
from django.views.decorators.http import require_POST
from django.views.generic import CreateView, TemplateView


class SignUpView(CreateView):
    form_class = UserCreationForm

    def form_valid(self, form):
        response = super().form_valid(form)
        login(self.request, self.object)
        return response


def page(view, title, message="", **options):
    context = {"title": title, "message": message}
    view = view.as_view(template_name="page.html", extra_context=context, **options)
    return sensitive_post_parameters()(view)


home, changed = reverse_lazy("home"), reverse_lazy("changed")
change = page(views.PasswordChangeView, "Change password", success_url=changed)
urlpatterns = [
    path("", page(TemplateView, "Accounts"), name="home"),
    path("changed/", page(TemplateView, "Accounts", "Your password was changed."), name="changed"),
    path("sign-up/", page(SignUpView, "Sign up", success_url=home), name="sign_up"),
    path("log-in/", page(views.LoginView, "Log in"), name="log_in"),
    path("log-out/", require_POST(views.LogoutView.as_view()), name="log_out"),
    path("change/", change, name="change"),
]
