# Shows the address of the machine's page at login, to those who may know it.
case $- in
    *i*) if [ -x /usr/bin/ngc-address ]; then ngc-address --at-login; fi ;;
esac
