"use strict";

// All texts of the page. A text may name values in braces. Refusals are listed by their numbers in docs/RULES.md: what
// happened, and the name of the remedy.

const TEXTS = {
  en: {
    put_title: "Send a file",
    get_title: "Fetch a file",
    language: "Language",
    link: "What this link is for",
    box: "Box",
    name: "Name in the box",
    holds: "The link is valid",
    holds_from_to: "from {from}\nto {to}",
    other_host: "This link is for {host}, but this page stands at {here}. The office will most likely refuse it " +
      "with number 21. Open this page at {host}.",
    no_link: "No link was given. Paste the whole link that you got from the office.",
    form: "The part of the address after the # is not a link. Paste the whole link that you got from the office.",
    dots: "This link can’t be used in a browser: its name has a part that is . or .. alone, and every browser " +
      "takes such parts out before it sends a link, so the office would refuse it. Nothing was sent. Ask the " +
      "office for a link with another name.",
    respelled: "This link can’t be used in a browser: it has characters that every browser rewrites before it " +
      "sends a link. Nothing was sent. Ask the office for the link in its usual spelling.",
    paste: "Link",
    take: "Use this link",
    choose: "The file",
    choose_file: "Choose a file",
    or_drop: "or drop one here. At most 8,388,608 bytes (8\u00a0MiB).",
    kept_as: "Whatever the file is called on your device, the office keeps it under the name above.",
    file: "File",
    size: "Size",
    digest: "SHA-256",
    bytes: "{length} bytes",
    working: "being computed …",
    insecure: "not computed here: this page was opened without encryption (http, not https), and browsers compute " +
      "no SHA-256 then. Others on the way could read or change the file and this page. Ask the office for an https " +
      "address. What arrived can still be checked: compare the SHA-256 in the receipt with that of your file, for " +
      "instance by the command sha256sum.",
    chosen: "Chosen: {file}, {length} bytes.",
    chosen_digest: "Its SHA-256 is computed.",
    several: "Only one file can be sent with a link; the first was taken.",
    choose_first: "Choose a file first.",
    send: "Send the file",
    fetch: "Fetch the file",
    fetch_again: "Fetch it again",
    progress_put: "Sending",
    progress_get: "Fetching",
    sent_so_far: "{percent} % – {loaded} of {total} bytes",
    sent_all: "All is sent. Waiting for the receipt …",
    fetched_so_far: "{loaded} bytes",
    stop: "Stop",
    again: "Try again",
    harmless: "Sending the same file again is harmless: the office keeps it once and gives the same receipt.",
    harmless_get: "Fetching changes nothing; you can do it as often as you like while the link is valid.",
    receipt: "Receipt {number}",
    receipt_lead: "The office has the file.",
    same: "This is the same receipt as before: the office had exactly this file already, and nothing was changed. " +
      "That is harmless.",
    number: "Receipt number",
    length: "Length",
    office_digest: "SHA-256 from the office",
    own_digest: "SHA-256 by this browser",
    moment: "Receipt shown at",
    moment_note: "“Receipt shown at” is by this device’s clock. The office’s own list says when the office first " +
      "accepted the file.",
    equal: "Checked: length and SHA-256 from the office are those of your file.",
    equal_get: "Checked: length and SHA-256 from the office are those of the file that arrived.",
    unchecked: "Not checked: this browser could not compute the SHA-256, because the page was opened without " +
      "encryption (http). Compare the SHA-256 from the office with that of your file yourself, for instance by the " +
      "command sha256sum.",
    differs_title: "The office has other bytes",
    differs: "What the office received is not the file that was sent: length or SHA-256 differ. It was changed on " +
      "the way. Tell the office this receipt’s number, and ask for a new link.",
    differs_get_title: "Other bytes arrived",
    differs_get: "What arrived is not what the office holds: length or SHA-256 differ. It was changed on the way, " +
      "so it can’t be saved here. Try again; if it stays so, tell the office.",
    fetched: "The file has arrived",
    print: "Print",
    keep: "Save the receipt as a text file",
    save: "Save the file as “{file}”",
    receipt_file: "receipt-{number}.txt",
    check: "To check a copy of the file later: sha256sum FILE must print this SHA-256.",
    address: "Office",
    answer: "The office’s answer",
    refused: "Refused: number {number}",
    not_sent: "Not sent: it would be refused with number {number}",
    office_says: "In the office’s words",
    what_to_do: "What to do",
    unreadable_title: "The file can’t be read",
    unreadable: "It may have been moved, changed or deleted since it was chosen, or it is a folder. Choose the " +
      "file again.",
    lost_title: "The connection was lost",
    lost: "No answer came. Perhaps the file arrived, perhaps not. Check your connection and try again.",
    lost_get: "No answer came, or not the whole. Check your connection and try again.",
    stopped_title: "Stopped",
    stopped: "You stopped it. Perhaps the file arrived, perhaps not. You can try again.",
    stopped_get: "You stopped it. You can try again.",
    away_title: "The office does not answer just now",
    away: "The web server is there, but the office behind it is not (status {status}). Wait a moment and try again.",
    strange_title: "An answer that is none of the office’s",
    strange: "Something between this page and the office answered (status {status}). Try again; if it stays so, " +
      "tell the office this status.",
    remedy_again: "Try again.",
    remedy_page: "This points to something between this page and the office, not to you. Try again; if it stays " +
      "so, tell the office the number.",
    remedy_copy: "Copy the whole link once more as you got it, without a line break or punctuation at its end, and " +
      "open it again. If it stays so, ask the office for a new link.",
    remedy_match_put: "Copy the whole link once more as you got it, and open it again. If it is a link for " +
      "fetching a file, open it with get.html. If it stays so, ask the office for a new link for sending.",
    remedy_match_get: "Copy the whole link once more as you got it, and open it again. If it is a link for sending " +
      "a file, open it with put.html. If it stays so, ask the office for a new link for fetching.",
    remedy_new: "Ask the office for a new link.",
    remedy_host: "Ask the office for a link that signs the host alone.",
    remedy_smaller: "Make the file smaller, or send it in parts with a link for each. If neither can be done, ask " +
      "the office for another way.",
    remedy_wait: "Wait until the time from which the link holds, and try again. If that time has come already, a " +
      "clock is wrong: tell the office.",
    remedy_box: "Tell the office. It must add the box, or give you another link.",
    remedy_name: "Ask the office for a link with another name.",
    remedy_closed: "Try again when the box is open, or ask the office when that is. A file that the office has " +
      "already gets its receipt again even now.",
    remedy_other: "The file that the office has stays as it is. If yours is to be kept too, ask the office for a " +
      "link with another name. If you only want the receipt again, choose exactly the file that was sent before.",
    remedy_room: "Ask the office to make room, and try again then.",
    remedy_absent: "It was not sent yet, or was taken out. Ask the office, and try again later.",
    refusals: {
      1: ["The office could not read the request.", "page"],
      2: ["The request is too long.", "page"],
      3: ["The request came in a form that the office does not take.", "page"],
      4: ["The length of the file was not told rightly.", "page"],
      5: ["The file has more than 8,388,608 bytes (8\u00a0MiB).", "smaller"],
      6: ["The file arrived only in part.", "again"],
      7: ["The office does not serve this kind of request.", "page"],
      8: ["The link is not written as links are.", "copy"],
      9: ["The link is not signed.", "copy"],
      10: ["The link lacks a part of its signature, or has one too many.", "copy"],
      11: ["The link names another kind of signature.", "copy"],
      12: ["The part of the link that names its key is damaged.", "copy"],
      13: ["The date in the link is damaged.", "copy"],
      14: ["The time for which the link holds is damaged.", "copy"],
      15: ["The list of signed headers in the link is damaged.", "copy"],
      16: ["The signature in the link is damaged.", "copy"],
      17: ["The link asks for a header that a browser does not send.", "host"],
      18: ["A header came along that the link does not sign.", "page"],
      19: ["The office does not know the key that signed the link.", "new"],
      20: ["The office has revoked the key that signed the link.", "new"],
      21: ["The signature does not match: the link is not whole, was changed, or is for something else.", "match"],
      22: ["The link does not hold yet.", "wait"],
      23: ["The link has expired.", "new"],
      24: ["The key that signed the link may not do this, or not in this box.", "new"],
      25: ["The length of the file was not told.", "page"],
      26: ["The request brought data where none is taken.", "page"],
      27: ["The office has no box of this name.", "box"],
      28: ["The name in the link is too long.", "name"],
      29: ["The box takes no file of this name.", "name"],
      30: ["The box is closed now.", "closed"],
      31: ["The office already keeps a file under this name, and its bytes are others.", "other"],
      32: ["The box holds as many files as it may.", "room"],
      33: ["The box has too little room for this file.", "room"],
      34: ["There is no file of this name in the box.", "absent"],
      35: ["The office did not understand the command.", "page"],
      36: ["The office can’t carry out the command.", "page"],
      40: ["The office could not do it just now. Nothing was lost.", "again"],
    },
    unknown: "The office gave a number that this page does not know.",
  },
  de: {
    put_title: "Datei senden",
    get_title: "Datei abholen",
    language: "Sprache",
    link: "Wofür dieser Link gilt",
    box: "Fach",
    name: "Name im Fach",
    holds: "Der Link gilt",
    holds_from_to: "von {from}\nbis {to}",
    other_host: "Dieser Link gilt für {host}, diese Seite steht aber auf {here}. Die Stelle wird ihn vermutlich " +
      "mit Nummer 21 ablehnen. Öffnen Sie diese Seite auf {host}.",
    no_link: "Es wurde kein Link angegeben. Fügen Sie den ganzen Link ein, den Sie von der Stelle bekommen haben.",
    form: "Der Teil der Adresse hinter dem # ist kein Link. Fügen Sie den ganzen Link ein, den Sie von der " +
      "Stelle bekommen haben.",
    dots: "Dieser Link lässt sich in einem Browser nicht benutzen: Ein Teil seines Namens ist nur . oder .., und " +
      "jeder Browser nimmt solche Teile vor dem Senden heraus, sodass die Stelle ihn ablehnen würde. Es wurde " +
      "nichts gesendet. Bitten Sie die Stelle um einen Link mit einem anderen Namen.",
    respelled: "Dieser Link lässt sich in einem Browser nicht benutzen: Er enthält Zeichen, die jeder Browser vor " +
      "dem Senden umschreibt. Es wurde nichts gesendet. Bitten Sie die Stelle um den Link in seiner üblichen " +
      "Schreibweise.",
    paste: "Link",
    take: "Diesen Link benutzen",
    choose: "Die Datei",
    choose_file: "Datei auswählen",
    or_drop: "oder hier ablegen. Höchstens 8.388.608 Bytes (8\u00a0MiB).",
    kept_as: "Wie auch immer die Datei auf Ihrem Gerät heißt: Die Stelle führt sie unter dem Namen, der oben steht.",
    file: "Datei",
    size: "Größe",
    digest: "SHA-256",
    bytes: "{length} Bytes",
    working: "wird berechnet …",
    insecure: "wird hier nicht berechnet: Diese Seite wurde ohne Verschlüsselung geöffnet (http statt https), und " +
      "dann berechnen Browser keine SHA-256. Andere könnten die Datei und diese Seite unterwegs lesen oder ändern. " +
      "Bitten Sie die Stelle um eine https-Adresse. Prüfen lässt sich trotzdem, was ankam: Vergleichen Sie die " +
      "SHA-256 der Quittung mit der Ihrer Datei, etwa mit dem Befehl sha256sum.",
    chosen: "Ausgewählt: {file}, {length} Bytes.",
    chosen_digest: "Die SHA-256 ist berechnet.",
    several: "Mit einem Link lässt sich nur eine Datei senden; die erste wurde genommen.",
    choose_first: "Wählen Sie zuerst eine Datei aus.",
    send: "Datei senden",
    fetch: "Datei abholen",
    fetch_again: "Noch einmal abholen",
    progress_put: "Wird gesendet",
    progress_get: "Wird abgeholt",
    sent_so_far: "{percent} % – {loaded} von {total} Bytes",
    sent_all: "Alles ist gesendet. Die Quittung wird erwartet …",
    fetched_so_far: "{loaded} Bytes",
    stop: "Anhalten",
    again: "Erneut versuchen",
    harmless: "Dieselbe Datei noch einmal zu senden schadet nicht: Die Stelle führt sie nur einmal und gibt " +
      "dieselbe Quittung.",
    harmless_get: "Das Abholen ändert nichts; Sie können es wiederholen, solange der Link gilt.",
    receipt: "Quittung {number}",
    receipt_lead: "Die Stelle hat die Datei.",
    same: "Das ist dieselbe Quittung wie zuvor: Die Stelle hatte genau diese Datei schon, und nichts wurde " +
      "geändert. Das schadet nicht.",
    number: "Nummer der Quittung",
    length: "Länge",
    office_digest: "SHA-256 von der Stelle",
    own_digest: "SHA-256 von diesem Browser",
    moment: "Quittung angezeigt am",
    moment_note: "„Quittung angezeigt am“ ist nach der Uhr dieses Geräts. Wann die Stelle die Datei zuerst annahm, " +
      "steht in ihrer eigenen Liste.",
    equal: "Geprüft: Länge und SHA-256 von der Stelle sind die Ihrer Datei.",
    equal_get: "Geprüft: Länge und SHA-256 von der Stelle sind die der Datei, die ankam.",
    unchecked: "Nicht geprüft: Dieser Browser konnte die SHA-256 nicht berechnen, weil die Seite ohne " +
      "Verschlüsselung geöffnet wurde (http). Vergleichen Sie die SHA-256 von der Stelle selbst mit der Ihrer " +
      "Datei, etwa mit dem Befehl sha256sum.",
    differs_title: "Die Stelle hat andere Bytes",
    differs: "Was die Stelle erhielt, ist nicht die Datei, die gesendet wurde: Länge oder SHA-256 weichen ab. Sie " +
      "wurde unterwegs verändert. Nennen Sie der Stelle die Nummer dieser Quittung und bitten Sie um einen neuen " +
      "Link.",
    differs_get_title: "Es kamen andere Bytes an",
    differs_get: "Was ankam, ist nicht, was die Stelle hat: Länge oder SHA-256 weichen ab. Es wurde unterwegs " +
      "verändert und lässt sich hier deshalb nicht speichern. Versuchen Sie es erneut; bleibt es so, sagen Sie es " +
      "der Stelle.",
    fetched: "Die Datei ist angekommen",
    print: "Drucken",
    keep: "Quittung als Textdatei speichern",
    save: "Datei speichern als „{file}“",
    receipt_file: "Quittung-{number}.txt",
    check: "So prüfen Sie später eine Kopie der Datei: sha256sum DATEI muss diese SHA-256 ausgeben.",
    address: "Stelle",
    answer: "Die Antwort der Stelle",
    refused: "Abgelehnt: Nummer {number}",
    not_sent: "Nicht gesendet: Sie würde mit Nummer {number} abgelehnt",
    office_says: "In den Worten der Stelle",
    what_to_do: "Was Sie tun können",
    unreadable_title: "Die Datei lässt sich nicht lesen",
    unreadable: "Vielleicht wurde sie nach dem Auswählen verschoben, geändert oder gelöscht, oder sie ist ein " +
      "Ordner. Wählen Sie die Datei noch einmal aus.",
    lost_title: "Die Verbindung ist abgebrochen",
    lost: "Es kam keine Antwort. Vielleicht ist die Datei angekommen, vielleicht nicht. Prüfen Sie Ihre Verbindung " +
      "und versuchen Sie es erneut.",
    lost_get: "Es kam keine Antwort oder nicht die ganze. Prüfen Sie Ihre Verbindung und versuchen Sie es erneut.",
    stopped_title: "Angehalten",
    stopped: "Sie haben angehalten. Vielleicht ist die Datei angekommen, vielleicht nicht. Sie können es erneut " +
      "versuchen.",
    stopped_get: "Sie haben angehalten. Sie können es erneut versuchen.",
    away_title: "Die Stelle antwortet gerade nicht",
    away: "Der Webserver ist da, die Stelle dahinter nicht (Status {status}). Warten Sie kurz und versuchen Sie es " +
      "erneut.",
    strange_title: "Eine Antwort, die nicht von der Stelle ist",
    strange: "Etwas zwischen dieser Seite und der Stelle hat geantwortet (Status {status}). Versuchen Sie es " +
      "erneut; bleibt es so, nennen Sie der Stelle diesen Status.",
    remedy_again: "Versuchen Sie es erneut.",
    remedy_page: "Das deutet auf etwas zwischen dieser Seite und der Stelle hin, nicht auf Sie. Versuchen Sie es " +
      "erneut; bleibt es so, nennen Sie der Stelle die Nummer.",
    remedy_copy: "Kopieren Sie noch einmal den ganzen Link, wie Sie ihn bekommen haben, ohne Zeilenumbruch und " +
      "ohne Satzzeichen am Ende, und öffnen Sie ihn erneut. Bleibt es so, bitten Sie die Stelle um einen neuen Link.",
    remedy_match_put: "Kopieren Sie noch einmal den ganzen Link, wie Sie ihn bekommen haben, und öffnen Sie ihn " +
      "erneut. Ist es ein Link zum Abholen, öffnen Sie ihn mit get.html. Bleibt es so, bitten Sie die Stelle um " +
      "einen neuen Link zum Senden.",
    remedy_match_get: "Kopieren Sie noch einmal den ganzen Link, wie Sie ihn bekommen haben, und öffnen Sie ihn " +
      "erneut. Ist es ein Link zum Senden, öffnen Sie ihn mit put.html. Bleibt es so, bitten Sie die Stelle um " +
      "einen neuen Link zum Abholen.",
    remedy_new: "Bitten Sie die Stelle um einen neuen Link.",
    remedy_host: "Bitten Sie die Stelle um einen Link, der nur den Host signiert.",
    remedy_smaller: "Verkleinern Sie die Datei oder senden Sie sie in Teilen, jeden mit einem eigenen Link. Geht " +
      "beides nicht, fragen Sie die Stelle nach einem anderen Weg.",
    remedy_wait: "Warten Sie bis zu der Zeit, ab der der Link gilt, und versuchen Sie es dann erneut. Ist diese Zeit " +
      "schon gekommen, geht eine Uhr falsch: Sagen Sie es der Stelle.",
    remedy_box: "Sagen Sie es der Stelle. Sie muss das Fach anlegen oder Ihnen einen anderen Link geben.",
    remedy_name: "Bitten Sie die Stelle um einen Link mit einem anderen Namen.",
    remedy_closed: "Versuchen Sie es erneut, wenn das Fach offen ist, oder fragen Sie die Stelle, wann das ist. " +
      "Eine Datei, die die Stelle schon hat, bekommt auch jetzt ihre Quittung noch einmal.",
    remedy_other: "Die Datei, die die Stelle hat, bleibt, wie sie ist. Soll auch Ihre angenommen werden, bitten " +
      "Sie die Stelle um einen Link mit einem anderen Namen. Möchten Sie nur die Quittung noch einmal, wählen Sie " +
      "genau die Datei, die zuvor gesendet wurde.",
    remedy_room: "Bitten Sie die Stelle, Platz zu schaffen, und versuchen Sie es dann erneut.",
    remedy_absent: "Sie wurde noch nicht gesendet oder wieder herausgenommen. Fragen Sie die Stelle und versuchen " +
      "Sie es später erneut.",
    refusals: {
      1: ["Die Stelle konnte die Anfrage nicht lesen.", "page"],
      2: ["Die Anfrage ist zu lang.", "page"],
      3: ["Die Anfrage kam in einer Form, die die Stelle nicht annimmt.", "page"],
      4: ["Die Länge der Datei wurde nicht richtig angegeben.", "page"],
      5: ["Die Datei hat mehr als 8.388.608 Bytes (8\u00a0MiB).", "smaller"],
      6: ["Die Datei kam nur zum Teil an.", "again"],
      7: ["Diese Art von Anfrage bedient die Stelle nicht.", "page"],
      8: ["Der Link ist nicht so geschrieben, wie Links es sind.", "copy"],
      9: ["Der Link ist nicht signiert.", "copy"],
      10: ["Dem Link fehlt ein Teil der Signatur, oder er hat einen zu viel.", "copy"],
      11: ["Der Link nennt eine andere Art von Signatur.", "copy"],
      12: ["Der Teil des Links, der den Schlüssel nennt, ist beschädigt.", "copy"],
      13: ["Das Datum im Link ist beschädigt.", "copy"],
      14: ["Die Dauer, für die der Link gilt, ist beschädigt.", "copy"],
      15: ["Die Liste der signierten Kopfzeilen im Link ist beschädigt.", "copy"],
      16: ["Die Signatur im Link ist beschädigt.", "copy"],
      17: ["Der Link verlangt eine Kopfzeile, die ein Browser nicht sendet.", "host"],
      18: ["Es kam eine Kopfzeile mit, die der Link nicht signiert.", "page"],
      19: ["Die Stelle kennt den Schlüssel nicht, der den Link signiert hat.", "new"],
      20: ["Die Stelle hat den Schlüssel widerrufen, der den Link signiert hat.", "new"],
      21: ["Die Signatur passt nicht: Der Link ist unvollständig, verändert oder für etwas anderes.", "match"],
      22: ["Der Link gilt noch nicht.", "wait"],
      23: ["Der Link ist abgelaufen.", "new"],
      24: ["Der Schlüssel, der den Link signiert hat, darf das nicht oder nicht in diesem Fach.", "new"],
      25: ["Die Länge der Datei wurde nicht angegeben.", "page"],
      26: ["Die Anfrage brachte Daten mit, wo keine angenommen werden.", "page"],
      27: ["Die Stelle hat kein Fach dieses Namens.", "box"],
      28: ["Der Name im Link ist zu lang.", "name"],
      29: ["Das Fach nimmt keine Datei dieses Namens an.", "name"],
      30: ["Das Fach ist jetzt geschlossen.", "closed"],
      31: ["Die Stelle hat unter diesem Namen schon eine Datei mit anderen Bytes.", "other"],
      32: ["Das Fach enthält schon so viele Dateien, wie es darf.", "room"],
      33: ["Im Fach ist zu wenig Platz für diese Datei.", "room"],
      34: ["Im Fach liegt keine Datei dieses Namens.", "absent"],
      35: ["Die Stelle hat den Befehl nicht verstanden.", "page"],
      36: ["Die Stelle kann den Befehl nicht ausführen.", "page"],
      40: ["Die Stelle konnte es gerade nicht tun. Nichts ging verloren.", "again"],
    },
    unknown: "Die Stelle nannte eine Nummer, die diese Seite nicht kennt.",
  },
};

// The refusals after which the same request may succeed.
const RETRY = [1, 2, 3, 4, 6, 7, 18, 22, 25, 26, 27, 30, 32, 33, 34, 40];
