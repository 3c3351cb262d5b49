"""A store with 65,536 keys, and then with 65,536 grants, and what its bounds answer.

At 65,536 live keys a new name is answered 1002, however the key comes, and a name that a key has is bound anew; at
65,536 grants a new pair of key and uid is answered 1002, and a pair that has a grant gets other bits under its number.
Ends make place again, and the end of a key ends all its grants."""
import itertools

from keystore.cases import Case
from keystore.every_act import WRAPPED, WRAPPING_KEY
from keystore.runs import check_replies

MOST = 65_536
FULL = '{"code":1002}'
DONE = '{"code":0}'
MAC = '[["PURPOSE",2],["ALGORITHM",128],["DIGEST",4],["MIN_MAC_LENGTH",64],["NO_AUTH_REQUIRED",true]]'


def call(act, members):
    return f'{{"t":[0,1000],"c":1,"do":"{act}",{members}}}'


def named(alias):
    return f'"key":{{"domain":0,"alias":"{alias}"}}'


def new_key(alias):
    return call("importKey", f'{named(alias)},"params":{MAC},"format":3,"material":"{"0b" * 20}"')


def wrapping_key(alias):
    params = '[["PURPOSE",5],["ALGORITHM",32],["NO_AUTH_REQUIRED",true]]'
    return call("importKey", f'{named(alias)},"params":{params},"format":3,"material":"{WRAPPING_KEY}"')


def wrapped_key(alias):
    """A key that comes wrapped under key 1."""
    wrapping = named(1).replace("key", "wrapping", 1)
    return call("importWrappedKey", f'{named(alias)},"params":{MAC},{wrapping},"wrapped":"{WRAPPED}"')


def made(number):
    return f'{{"code":0,"key":{number}}}'


def shared(uid, bits=256):
    return call("grant", f'{named(7)},"uid":{uid},"bits":{bits}')


def granted(number):
    return f'{{"code":0,"grant":{number}}}'


def keys():
    """As many keys as there may be, and what a new one more is answered."""
    yield '{"t":[0,1000],"do":"connect","uid":10001}', '{"client":1,"code":0}'
    yield wrapping_key(1), made(1)
    for number in range(2, MOST + 1):
        yield new_key(number), made(number)
    yield new_key("z"), FULL
    yield wrapped_key("z"), FULL
    yield call("generateKey", f'{named("z")},"params":[["KEY_SIZE",128],{MAC[1:]}'), FULL
    yield new_key("7"), made(MOST + 1)
    yield wrapped_key("9"), made(MOST + 2)
    yield call("getNumberOfEntries", '"domain":0'), f'{{"code":0,"count":{MOST}}}'
    yield call("deleteKey", named(8)), DONE
    yield new_key("z"), made(MOST + 3)
    yield new_key("8"), FULL
    yield wrapped_key("8"), FULL


def grants():
    """As many grants of one key as there may be, and what a new one more is answered."""
    for uid in range(1, MOST + 1):
        yield shared(uid), granted(uid)
    yield shared(MOST + 1), FULL
    yield shared(5, 4), granted(5)
    yield call("ungrant", f'{named(7)},"uid":5'), DONE
    yield shared(MOST + 1), granted(MOST + 1)
    yield shared(5), FULL
    yield call("deleteKey", named(7)), DONE
    yield new_key("7"), made(MOST + 4)
    yield shared(5), granted(MOST + 2)


class FullStore(Case):
    def test_as_many_keys_and_grants_as_there_may_be_and_no_more(self):
        asked, wanted = zip(*itertools.chain(keys(), grants()))
        check_replies(self.program, asked, wanted)
