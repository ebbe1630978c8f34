"""Django's settings for a hall, made of its course's file. ARENA_HALL names the hall's
folder."""
import hashlib
import pathlib
import socket
import urllib.parse
from typing import Any, Dict, List

import django

from arena_lab.hall import place
from arena_lab.hall.hall_files import CODEMIRROR

PLACE = place.current()
HALL = PLACE.hall()
HERE = pathlib.Path(__file__).resolve().parent

SECRET_KEY = PLACE.secret(place.KEY)
DEBUG = False
ALLOWED_HOSTS = [
    "localhost",
    "127.0.0.1",
    "[::1]",
    socket.gethostname().lower(),
    HALL.host,
    *HALL.names,
]
ROOT_URLCONF = "arena_lab.hall.urls"

INSTALLED_APPS = [
    *(
        f"arena_lab.hall.apps.{name}"
        for name in ("Teams", "Attempts", "HandIns", "Writing", "Standings")
    ),
    "django.contrib.admin",
    "django.contrib.auth",
    "django.contrib.contenttypes",
    "django.contrib.sessions",
    "django.contrib.messages",
    "django.contrib.staticfiles",
    "rest_framework",
]
MIDDLEWARE = [
    "arena_lab.hall.teams.guards.Guards",
    "django.middleware.security.SecurityMiddleware",
    "whitenoise.middleware.WhiteNoiseMiddleware",
    "django.contrib.sessions.middleware.SessionMiddleware",
    "django.middleware.locale.LocaleMiddleware",
    "django.middleware.common.CommonMiddleware",
    "django.middleware.csrf.CsrfViewMiddleware",
    "django.contrib.auth.middleware.AuthenticationMiddleware",
    "django.contrib.messages.middleware.MessageMiddleware",
    "django.middleware.clickjacking.XFrameOptionsMiddleware",
    "arena_lab.hall.teams.logins.Teams",
]
TEMPLATES = [
    {
        "BACKEND": "django.template.backends.django.DjangoTemplates",
        "DIRS": [HERE / "templates"],
        "APP_DIRS": True,
        "OPTIONS": {
            "context_processors": [
                "django.template.context_processors.request",
                "django.contrib.auth.context_processors.auth",
                "django.contrib.messages.context_processors.messages",
                "arena_lab.hall.teams.logins.page_context",
            ]
        },
    }
]


def database_of(address: str) -> Dict[str, Any]:
    """The database: a file in the hall's folder, or the PostgreSQL of an address."""
    if address == "sqlite":
        return {
            "ENGINE": "arena_lab.hall.sqlite",
            "NAME": str(PLACE.folder / "hall.sqlite3"),
            "OPTIONS": {"timeout": 30},
        }
    url = urllib.parse.urlsplit(address)
    parts = {
        "USER": url.username,
        "PASSWORD": url.password,
        "HOST": url.hostname,
        "PORT": url.port,
    }
    return {
        "ENGINE": "django.db.backends.postgresql",
        "NAME": url.path.lstrip("/"),
        "CONN_MAX_AGE": 60,
        # a worker whose machine has gone does not keep the others from the queue
        "OPTIONS": {"options": "-c idle_in_transaction_session_timeout=10s"},
        **{
            name: urllib.parse.unquote(str(value))
            for name, value in parts.items()
            if value
        },
    }


DATABASES = {"default": database_of(HALL.database)}
DEFAULT_AUTO_FIELD = "django.db.models.BigAutoField"
AUTHENTICATION_BACKENDS = ["arena_lab.hall.teams.logins.Teachers"]
AUTH_PASSWORD_VALIDATORS = [
    {
        "NAME": "django.contrib.auth.password_validation.MinimumLengthValidator",
        "OPTIONS": {"min_length": 10},
    }
]

LOCAL = {"BACKEND": "django.core.cache.backends.locmem.LocMemCache"}
CACHES = {
    "default": LOCAL,
    "known": {
        **LOCAL,
        "LOCATION": "known",
        "TIMEOUT": None,
        "OPTIONS": {"MAX_ENTRIES": 20_000},
    },
}

LANGUAGE_CODE = HALL.language
LANGUAGES = [("en", "English"), ("de", "Deutsch"), ("fr", "Français")]
LOCALE_PATHS = [HERE / "locale"]
USE_I18N = True
USE_TZ = True
if django.VERSION < (4,):
    # later versions do so anyhow
    USE_L10N = True
TIME_ZONE = HALL.zone
FORMAT_MODULE_PATH = ["arena_lab.hall.formats"]

STATIC_URL = "/static/"
STATICFILES_DIRS: List[Any] = [HERE / "static"]
if HALL.editor is not None and CODEMIRROR.is_dir():
    STATICFILES_DIRS.append(("codemirror", CODEMIRROR))
WHITENOISE_USE_FINDERS = True
WHITENOISE_MAX_AGE = 3600
LOGIN_URL = "/login"

# cookies: not for scripts, not for other sites, and encrypted alone if a server that
# encrypts stands before the hall
# and of this course alone: browsers send them to all ports of a host
COURSE_NAME = hashlib.sha256(SECRET_KEY.encode()).hexdigest()[:8]
SESSION_COOKIE_NAME = f"session-{COURSE_NAME}"
CSRF_COOKIE_NAME = f"csrf-{COURSE_NAME}"
LANGUAGE_COOKIE_NAME = f"language-{COURSE_NAME}"
SESSION_COOKIE_HTTPONLY = CSRF_COOKIE_HTTPONLY = True
SESSION_COOKIE_SAMESITE = CSRF_COOKIE_SAMESITE = "Lax"
SESSION_COOKIE_SECURE = CSRF_COOKIE_SECURE = HALL.https
SESSION_COOKIE_AGE = 14 * 24 * 3600
SECURE_REFERRER_POLICY = "same-origin"
SECURE_CONTENT_TYPE_NOSNIFF = True
X_FRAME_OPTIONS = "DENY"
if HALL.https:
    # later versions of Django want the scheme too
    CSRF_TRUSTED_ORIGINS = [
        name if django.VERSION < (4,) else f"https://{name}"
        for name in (HALL.host, *HALL.names)
    ]

# a form of the teacher has some fields for each team; strangers send 64 KB at most, and
# files go to the disk
DATA_UPLOAD_MAX_MEMORY_SIZE = 256 << 10
DATA_UPLOAD_MAX_NUMBER_FIELDS = 5_000
FILE_UPLOAD_MAX_MEMORY_SIZE = 64 << 10

REST_FRAMEWORK = {
    "DEFAULT_AUTHENTICATION_CLASSES": [
        "arena_lab.hall.teams.logins.ByToken",
        "arena_lab.hall.teams.logins.BySession",
    ],
    "DEFAULT_PERMISSION_CLASSES": ["arena_lab.hall.teams.logins.IsTeam"],
    "DEFAULT_RENDERER_CLASSES": ["rest_framework.renderers.JSONRenderer"],
    "DEFAULT_PARSER_CLASSES": [
        "rest_framework.parsers.JSONParser",
        "rest_framework.parsers.MultiPartParser",
    ],
    "EXCEPTION_HANDLER": "arena_lab.hall.teams.error_responses.error_response",
    "UNAUTHENTICATED_USER": None,
}

# what went wrong stands in the log of the hall without what was sent: tokens and
# passwords are in no line
LOGGING = {
    "version": 1,
    "disable_existing_loggers": False,
    "formatters": {
        "plain": {"format": "%(asctime)s %(levelname)s %(name)s: %(message)s"}
    },
    "handlers": {"stderr": {"class": "logging.StreamHandler", "formatter": "plain"}},
    "root": {"handlers": ["stderr"], "level": "WARNING"},
    "loggers": {
        "django.request": {"level": "ERROR"},
        "django.security": {"level": "ERROR"},
    },
}
