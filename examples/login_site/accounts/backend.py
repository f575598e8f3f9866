from django.contrib.auth.backends import ModelBackend
from django.contrib.auth.hashers import check_password
from django.contrib.auth.models import User
from django.utils.crypto import salted_hmac

from .hashers import Scrypt


def stored_hash_for(name):
    """The stored hash of a user that a keyed hash of the name chooses, or None if there are no
    users. A new user is chosen for few names, and changes nothing for the others."""
    if last := User.objects.order_by("pk").last():
        size = 1 << last.pk.bit_length()
        keyed = salted_hmac("accounts.backend", name, algorithm="sha256").hexdigest()  # by SECRET_KEY
        chosen = int(keyed, 16) % size
        least = chosen if chosen <= last.pk else chosen - size // 2
        return User.objects.filter(pk__gte=least).earliest("pk").password


class Backend(ModelBackend):
    """Verifies the password for an unknown user too: against the stored hash of another user,
    because hashes of older parameters take another time than new ones. Django would make a new hash,
    which also takes longer under load, because only verifications are derived in batches."""

    def authenticate(self, request, username, password):
        other = stored_hash_for(username)  # for a known name too, so that both make the same queries
        try:
            user = User.objects.get_by_natural_key(username)
        except User.DoesNotExist:
            check_password(password, other) if other else Scrypt().verify_no_hash(password)
        else:
            if user.check_password(password) and self.user_can_authenticate(user):
                return user
