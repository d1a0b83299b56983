      I=IABS(1,.TRUE.)
      END
