
chip/made: FORCE
	@mkdir -p chip
	@$(call kept,$@,@@{read} @@{written}) || { $(call again,$@); \
	  (cd $(ROOT) && $(LAUNCHER) top @@{words} $(OUT)/chip --in-place@@{log}@@{models}@@{mux} >/dev/null) && \
	  touch $@ && $(call done,$@,@@{read} @@{written}); }

# what starts the memories, by a signal, by APB and by a TAP
chip/access: chip/made FORCE
	@$(call kept,$@,@@{read} @@{access}) || { $(call again,$@); \
	  (cd $(ROOT) && $(LAUNCHER) access @@{words} $(OUT)/chip --in-place --apb @@{way} >/dev/null && \
	  $(LAUNCHER) sdc @@{words} $(OUT)/chip --in-place@@{places} --mhz $(MHZ) >/dev/null) && \
	  (cd chip && for kind in access apb @@{turn}; do iverilog -g2012 $(MORE) -o $${kind}_tb -c @@{name}_$$kind.f && \
	  for more in "" "+planted"; do vvp -n $${kind}_tb $$more | tee $${kind}_run.log && \
	  $(call passed,@@{name}_$${kind}_tb,$${kind}_run.log) || exit 1; done || exit 1; done) && \
	  touch $@ && $(call done,$@,@@{read} @@{access}); }
