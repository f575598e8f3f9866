"""Settings of the site, some of them from the environment: see README.md."""

import os
from pathlib import Path

from django.core.management.utils import get_random_secret_key

BASE = Path(__file__).resolve().parent.parent
SECRET_KEY = os.environ.get("SECRET_KEY") or get_random_secret_key()
ALLOWED_HOSTS = os.environ.get("ALLOWED_HOSTS", "localhost 127.0.0.1").split()
SESSION_COOKIE_SECURE = CSRF_COOKIE_SECURE = "HTTPS" in os.environ

PASSWORD_HASHERS = [
    "accounts.hashers.Scrypt",  # makes all new hashes
    "django.contrib.auth.hashers.PBKDF2PasswordHasher",  # its hashes are replaced at log-in
]
AUTHENTICATION_BACKENDS = ["accounts.backend.Backend"]
AUTH_PASSWORD_VALIDATORS = [
    {"NAME": f"django.contrib.auth.password_validation.{name}Validator"}
    for name in ("UserAttributeSimilarity", "MinimumLength", "CommonPassword", "NumericPassword")
]
LOGIN_URL, LOGIN_REDIRECT_URL, LOGOUT_REDIRECT_URL = "log_in", "home", "home"

DATABASES = {"default": {
    "ENGINE": "django.db.backends.sqlite3",
    "NAME": os.environ.get("SQLITE", BASE / "accounts.sqlite3"),
    "TEST": {"NAME": BASE / "test.sqlite3"},  # in memory, threads would share a connection
    "OPTIONS": {"timeout": 20},
}}
if name := os.environ.get("PGDATABASE"):  # libpq itself reads PGHOST, PGUSER, PGPASSFILE and so on
    DATABASES["default"] = {"ENGINE": "django.db.backends.postgresql", "NAME": name}

INSTALLED_APPS = [
    "accounts", "django.contrib.auth", "django.contrib.contenttypes", "django.contrib.sessions",
]
MIDDLEWARE = [
    "django.middleware.security.SecurityMiddleware",
    "django.contrib.sessions.middleware.SessionMiddleware",
    "django.middleware.common.CommonMiddleware",
    "django.middleware.csrf.CsrfViewMiddleware",
    "django.contrib.auth.middleware.AuthenticationMiddleware",
    "django.middleware.clickjacking.XFrameOptionsMiddleware",
    "accounts.overload.OverloadMiddleware",
]
TEMPLATES = [{
    "BACKEND": "django.template.backends.django.DjangoTemplates",
    "APP_DIRS": True,
    "OPTIONS": {"context_processors": ["django.contrib.auth.context_processors.auth"]},
}]
ROOT_URLCONF = "accounts.urls"
DEFAULT_AUTO_FIELD = "django.db.models.BigAutoField"
USE_TZ, TIME_ZONE = True, "UTC"
