"""The settings of Django."""

SECRET_KEY = "an example has no secrets"
ALLOWED_HOSTS = ["127.0.0.1"]
ROOT_URLCONF = "shop.urls"
INSTALLED_APPS = ["shop"]
MIDDLEWARE = ["shop.dependencies.within_context"]
USE_TZ = True
