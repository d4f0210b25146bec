"""The sample tables: five languages and five locales, three zones and 42 functions."""
from typing import NamedTuple

from ic_laws.name import fold


class Language(NamedTuple):
    code: str
    name: str
    booleans: tuple
    errors: tuple
    functions: tuple
    found: dict


class Locale(NamedTuple):
    decimal: str
    group: str
    list: str
    iso: str
    symbol: str
    money: str
    short: str
    long: str


class NamedLocale(NamedTuple):
    id: str
    locale: Locale


class TableSet(NamedTuple):
    languages: tuple
    locales: tuple
    zones: tuple
    kinds: str


LET_FN, LAMBDA_FN = 0, 1


def first_of_each(words):
    """The number of the first word of each folding."""
    found = {}
    for i, word in enumerate(words):
        found.setdefault(fold(word), i)
    return found


def language_in(code, name, booleans, errors, functions):
    lists = {"Boolean": booleans.split(), "Error": errors.split(), "Function": functions.split()}
    return Language(code, name, *(tuple(words) for words in lists.values()),
                    {kind: first_of_each(words) for kind, words in lists.items()})


ENGLISH = language_in(
    "en", "English", "TRUE FALSE",
    "#REF! #NAME? #VALUE! #DIV/0! #N/A #NUM! #N/IMPL! #SPILL! #CALC! #CIRC! #ERROR! #NULL!",
    "LET LAMBDA TRUE FALSE SUM PRODUCT AVERAGE MIN MAX COUNT COUNTA COUNTIF SUMIF IF IFERROR IFNA AND OR NOT XOR ABS SIN COS "
    "TAN PI SQRT POWER LOG10 ROUND INT MOD LEN LEFT RIGHT MID UPPER CONCAT INDEX VLOOKUP SEQUENCE UNIQUE TODAY")
SPANISH = language_in(
    "es", "Spanish", "VERDADERO FALSO",
    "#¡REF! #¿NOMBRE? #¡VALOR! #¡DIV/0! #N/D #¡NUM! #N/IMPL! #¡DESBORDAMIENTO! #¡CALC! #¡CIRC! #¡ERROR! #¡NULO!",
    "LET LAMBDA VERDADERO FALSO SUMA PRODUCTO PROMEDIO MIN MAX CONTAR CONTARA CONTAR.SI SUMAR.SI SI SI.ERROR SI.ND Y O NO XO "
    "ABS SENO COS TAN PI RAIZ POTENCIA LOG10 REDONDEAR ENTERO RESIDUO LARGO IZQUIERDA DERECHA EXTRAE MAYUSC CONCAT INDICE "
    "BUSCARV SECUENCIA UNICOS HOY")
FRENCH = language_in(
    "fr", "French", "VRAI FAUX",
    "#REF! #NOM? #VALEUR! #DIV/0! #N/A #NOMBRE! #N/IMPL! #PROPAGATION! #CALC! #CIRC! #ERREUR! #NUL!",
    "LET LAMBDA VRAI FAUX SOMME PRODUIT MOYENNE MIN MAX NB NBVAL NB.SI SOMME.SI SI SIERREUR SI.NON.DISP ET OU NON OUX ABS SIN "
    "COS TAN PI RACINE PUISSANCE LOG10 ARRONDI ENT MOD NBCAR GAUCHE DROITE STXT MAJUSCULE CONCAT INDEX RECHERCHEV SEQUENCE "
    "UNIQUE AUJOURDHUI")
GERMAN = language_in(
    "de", "German", "WAHR FALSCH",
    "#BEZUG! #NAME? #WERT! #DIV/0! #NV #ZAHL! #N/IMPL! #ÜBERLAUF! #CALC! #CIRC! #FEHLER! #NULL!",
    "LET LAMBDA WAHR FALSCH SUMME PRODUKT MITTELWERT MIN MAX ANZAHL ANZAHL2 ZÄHLENWENN SUMMEWENN WENN WENNFEHLER WENNNV UND "
    "ODER NICHT XODER ABS SIN COS TAN PI WURZEL POTENZ LOG10 RUNDEN GANZZAHL REST LÄNGE LINKS RECHTS TEIL GROSS TEXTKETTE "
    "INDEX SVERWEIS SEQUENZ EINDEUTIG HEUTE")
ITALIAN = language_in(
    "it", "Italian", "VERO FALSO",
    "#RIF! #NOME? #VALORE! #DIV/0! #N/D #NUM! #N/IMPL! #ESPANSIONE! #CALC! #CIRC! #ERRORE! #NULLO!",
    "LET LAMBDA VERO FALSO SOMMA PRODOTTO MEDIA MIN MAX CONTA.NUMERI CONTA.VALORI CONTA.SE SOMMA.SE SE SE.ERRORE SE.NON.DISP E "
    "O NON XOR ABS SEN COS TAN PI.GRECO RADQ POTENZA LOG10 ARROTONDA INT RESTO LUNGHEZZA SINISTRA DESTRA STRINGA.ESTRAI MAIUSC "
    "CONCAT INDICE CERCA.VERT SEQUENZA UNICI OGGI")


def european(id, group):
    return NamedLocale(id, Locale(",", group, ";", "EUR", "€", "#,##0.00\u00a0¤", "dd/mm/yyyy", "yyyy-mm-dd"))


SAMPLE = TableSet(
    (ENGLISH, SPANISH, FRENCH, GERMAN, ITALIAN),
    (NamedLocale("en", Locale(".", ",", ",", "USD", "$", "¤#,##0.00", "m/d/yyyy", "yyyy-mm-dd")), european("es", "."),
     european("fr", " "), european("de", "."), european("it", ".")),
    ("UTC", "Europe/Berlin", "America/New_York"),
    "EEEEWWWWWWWWWEEEWWEWEEEEEEEEEEEEEEEEWWWDDE")
