// Presses the keys and buttons of a page, and writes down whether each came to the step it should: `ok`, or what went wrong.
(() => {
  const end = document.querySelectorAll("nav li").length - 1;
  const wrong = [];
  const place = () => {
    const here = [...document.querySelectorAll("nav li")].findIndex((item) => item.hasAttribute("aria-current"));
    const slider = Number(document.getElementById("slider").value);
    const hash = Number(location.hash.slice(1));
    return here === slider && here === hash ? here : [here, slider, hash].join(" / ");
  };
  const look = (what, wanted) => {
    const at = Math.min(Math.max(wanted, 0), end);
    const told = document.getElementById("place").textContent;
    const said = at === 0 ? told.startsWith("the fresh board") : told === "call " + at + " of " + end;
    if (place() !== at || !said) wrong.push(what + ": " + place() + ", not " + at + ", and says " + told);
  };
  const press = (key, wanted, more) => {
    document.dispatchEvent(new KeyboardEvent("keydown", { key, bubbles: true, cancelable: true, ...more }));
    look(key, wanted);
  };
  const click = (id, wanted) => {
    document.getElementById(id).click();
    look(id, wanted);
  };
  press("Home", 0);
  press("ArrowLeft", 0);
  press("ArrowRight", 1);
  press("j", 2);
  press("j", 3);
  press("k", 2);
  press("ArrowLeft", 1);
  press("ArrowRight", 1, { ctrlKey: true });
  press("x", 1);
  press("End", end);
  press("ArrowRight", end);
  click("first", 0);
  click("next", 1);
  click("last", end);
  click("back", end - 1);
  const slider = document.getElementById("slider");
  slider.value = 2;
  slider.dispatchEvent(new Event("input", { bubbles: true }));
  look("slider", 2);
  location.hash = "#1";
  setTimeout(() => {
    look("address", 1);
    const told = document.createElement("pre");
    told.id = "keys";
    told.textContent = wrong.length === 0 ? "ok" : wrong.join("; ");
    document.body.append(told);
  }, 100);
})();
