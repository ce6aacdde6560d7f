"""Japanese by Hepburn: kana, kanji by the Unihan database, and names of addresses as they are printed on maps. The engine
itself doubles after a small tsu, joins a small ya to a syllable in i, and lengthens at a long mark."""
from tables import Rule
from unidata import unihan

KANA = {
    "あいうえお": "a i u e o", "かきくけこ": "ka ki ku ke ko", "がぎぐげご": "ga gi gu ge go", "さしすせそ": "sa shi su se so",
    "ざじずぜぞ": "za ji zu ze zo", "たちつてと": "ta chi tsu te to", "だぢづでど": "da ji zu de do", "なにぬねの": "na ni nu ne no",
    "はひふへほ": "ha hi fu he ho", "ばびぶべぼ": "ba bi bu be bo", "ぱぴぷぺぽ": "pa pi pu pe po", "まみむめも": "ma mi mu me mo",
    "やゆよ": "ya yu yo", "らりるれろ": "ra ri ru re ro", "わゐゑをん": "wa i e o n", "ゔ": "vu", "っゃゅょゎ": "tsu ya yu yo wa",
    "ぁぃぅぇぉ": "a i u e o"}
# where a small kana after a syllable is not just joined to it
JOINED = {
    "しゃ": "sha", "しゅ": "shu", "しょ": "sho", "しぇ": "she", "じゃ": "ja", "じゅ": "ju", "じょ": "jo", "じぇ": "je", "ちゃ": "cha",
    "ちゅ": "chu", "ちょ": "cho", "ちぇ": "che", "ぢゃ": "ja", "ぢゅ": "ju", "ぢょ": "jo", "てぃ": "ti", "でぃ": "di", "でゅ": "dyu",
    "とぅ": "tu", "どぅ": "du", "ふぁ": "fa", "ふぃ": "fi", "ふぇ": "fe", "ふぉ": "fo", "うぃ": "wi", "うぇ": "we", "うぉ": "wo",
    "ゔぁ": "va", "ゔぃ": "vi", "ゔぇ": "ve", "ゔぉ": "vo", "つぁ": "tsa"}
WORDS = {
    "都": "to", "道": "do", "府": "fu", "県": "ken", "市": "shi", "区": "ku", "町": "cho", "村": "mura", "郡": "gun", "丁目": "chome",
    "番地": "banchi", "番": "ban", "号": "go", "号室": "goshitsu", "通り": "dori", "駅": "eki", "様": "sama", "北海道": "hokkaido",
    "青森": "aomori", "岩手": "iwate", "宮城": "miyagi", "秋田": "akita", "山形": "yamagata", "福島": "fukushima", "茨城": "ibaraki",
    "栃木": "tochigi", "群馬": "gunma", "埼玉": "saitama", "千葉": "chiba", "東京": "tokyo", "神奈川": "kanagawa", "新潟": "niigata",
    "富山": "toyama", "石川": "ishikawa", "福井": "fukui", "山梨": "yamanashi", "長野": "nagano", "岐阜": "gifu", "静岡": "shizuoka",
    "愛知": "aichi", "三重": "mie", "滋賀": "shiga", "京都": "kyoto", "大阪": "osaka", "兵庫": "hyogo", "奈良": "nara",
    "和歌山": "wakayama", "鳥取": "tottori", "島根": "shimane", "岡山": "okayama", "広島": "hiroshima", "山口": "yamaguchi",
    "徳島": "tokushima", "香川": "kagawa", "愛媛": "ehime", "高知": "kochi", "福岡": "fukuoka", "佐賀": "saga", "長崎": "nagasaki",
    "熊本": "kumamoto", "大分": "oita", "宮崎": "miyazaki", "鹿児島": "kagoshima", "沖縄": "okinawa", "札幌": "sapporo",
    "仙台": "sendai", "横浜": "yokohama", "川崎": "kawasaki", "名古屋": "nagoya", "神戸": "kobe", "千代田": "chiyoda",
    "中央": "chuo", "港": "minato", "新宿": "shinjuku", "文京": "bunkyo", "台東": "taito", "墨田": "sumida", "江東": "koto",
    "品川": "shinagawa", "目黒": "meguro", "大田": "ota", "世田谷": "setagaya", "渋谷": "shibuya", "中野": "nakano",
    "杉並": "suginami", "豊島": "toshima", "荒川": "arakawa", "板橋": "itabashi", "練馬": "nerima", "足立": "adachi",
    "葛飾": "katsushika", "江戸川": "edogawa"}


def hiragana():
    return {c: reading for row, readings in KANA.items() for c, reading in zip(row, readings.split())} | JOINED


def katakana(source):
    """the same in katakana, which stand 96 characters further on"""
    return "".join(chr(ord(c) + 96) for c in source)


def kanji():
    """the kanji in common use with the first reading that Unihan gives: Chinese in origin, or else Japanese"""
    on, kun = (unihan("Unihan_Readings", field) for field in ("kJapaneseOn", "kJapaneseKun"))
    for c in unihan("Unihan_OtherMappings", "kJoyoKanji"):
        reading = (on.get(c) or kun.get(c) or "").lower().split()
        if reading and ord(c) <= 0xFFFF:
            yield c, reading[0]


def rules():
    kana = hiragana()
    kana |= {katakana(source): reading for source, reading in kana.items()}
    return [Rule(*row) for row in (kana | dict(kanji()) | WORDS | {"ー": "", "々": ""}).items()]
